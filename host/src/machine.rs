//! The plain machine over terms in which the programs are played (document 01, "The rehearsal"): who has done which
//! events, what was sent, what is bound. The rehearsal moves by it, and the tests of demand 3 look at all its states.

use crate::book::{Book, Terms};
use crate::term::Term;
use crate::translate::{Event, Image, Program};
use std::collections::{BTreeMap, BTreeSet};

/// One party of the machine.
#[derive(Clone, Debug)]
pub struct Player {
    /// Events done; the rest of its program is left to do.
    pub done: usize,
    /// Placeholders bound by number to terms.
    pub bound: BTreeMap<u32, Term>,
    /// What it knows as itself, by row: known at the start, or made.
    pub itself: BTreeMap<u32, Term>,
    /// "A failed CHECK or OPEN halts its party."
    pub halted: bool,
}

/// The machine: its parties, and what was sent.
#[derive(Clone, Debug)]
pub struct Machine<'p> {
    programs: &'p [Program],
    receivers: Vec<u32>,
    pub players: Vec<Player>,
    /// The messages of each sent step.
    pub sent: BTreeMap<u32, Vec<Term>>,
    /// The atoms made so far, each with its maker, in the order of making.
    pub made: Vec<(u32, u32)>,
    /// The atoms that are somewhere already.
    present: BTreeSet<u32>,
    /// An atom that is nowhere yet.
    unused: u32,
}

/// What a party's next event comes to.
enum Outcome {
    /// At END, waiting, or halted: nothing is done.
    Nothing,
    /// A CHECK or OPEN that fails.
    Failure,
    Made(u32),
    Sent(u32, Vec<Term>),
    /// These terms are bound from this placeholder on; none for a CHECK.
    Bound(u32, Vec<Term>),
}

impl<'p> Machine<'p> {
    /// The machine before the first move.
    pub fn start(book: &Book, programs: &'p [Program]) -> Machine<'p> {
        let mut present = BTreeSet::new();
        let mut players = Vec::new();
        for party in &book.parties {
            let known = party.known.iter().map(|row| (*row, book.term(*row)));
            let itself: BTreeMap<u32, Term> = known.collect();
            present.insert(party.name);
            itself.values().for_each(|term| atoms(term, &mut present));
            players.push(Player {
                done: 0,
                bound: BTreeMap::new(),
                itself,
                halted: false,
            });
        }
        Machine {
            programs,
            receivers: book.steps.iter().map(|step| step.receiver).collect(),
            players,
            sent: BTreeMap::new(),
            made: Vec::new(),
            present,
            unused: book.rows.len() as u32,
        }
    }

    /// The party's next event; nothing for a party that has halted or a number that is no party's.
    pub fn next(&self, party: u32) -> Option<&'p Event> {
        let player = self.players.get(party as usize)?;
        let program = self.programs.get(party as usize)?;
        program.get(player.done).filter(|_| !player.halted)
    }

    /// Whether the party is at its END.
    pub fn at_end(&self, party: u32) -> bool {
        matches!(self.next(party), Some(Event::End { .. }))
    }

    /// The step the party waits for, if its next event is a RECEIVE.
    pub fn waits_for(&self, party: u32) -> Option<u32> {
        match self.next(party) {
            Some(Event::Receive { step, .. }) => Some(*step),
            _ => None,
        }
    }

    /// "A party *can move* there if its next event gets done, by its own move or by a handing over."
    pub fn can_move(&self, party: u32) -> bool {
        let outcome = match self.waits_for(party) {
            Some(step) => self.delivery(step),
            None => self.outcome(party),
        };
        !matches!(outcome, Outcome::Nothing | Outcome::Failure)
    }

    /// A move of the rehearsal: the party's next event, "or nothing if it is at END or waits for a
    /// step not yet sent". Whether an event got done.
    pub fn move_party(&mut self, party: u32) -> bool {
        match self.waits_for(party) {
            Some(step) => self.hand_over(step),
            None => self.own_move(party),
        }
    }

    /// A move of demand 3: "a party's own move at a RECEIVE does nothing".
    pub fn own_move(&mut self, party: u32) -> bool {
        let outcome = self.outcome(party);
        self.apply(party, outcome)
    }

    /// The carrier's move of demand 3: it "hands over a copy of a sent step's messages, any number
    /// of times or never, and the receiver takes it if it waits for that step; otherwise the copy
    /// is dropped".
    pub fn hand_over(&mut self, step: u32) -> bool {
        let outcome = self.delivery(step);
        match self.receivers.get(step as usize) {
            Some(receiver) => self.apply(*receiver, outcome),
            None => false,
        }
    }

    /// What a handing over of this step's messages comes to.
    fn delivery(&self, step: u32) -> Outcome {
        let receiver = self.receivers.get(step as usize);
        let next = receiver.and_then(|receiver| self.next(*receiver));
        match (next, self.sent.get(&step)) {
            (Some(Event::Receive { step: own, first, n }), Some(messages)) if *own == step => {
                if messages.len() == *n as usize {
                    Outcome::Bound(*first, messages.clone())
                } else {
                    Outcome::Failure
                }
            }
            _ => Outcome::Nothing,
        }
    }

    /// What the party's own next event comes to.
    fn outcome(&self, party: u32) -> Outcome {
        let Some(event) = self.next(party) else {
            return Outcome::Nothing;
        };
        let player = &self.players[party as usize];
        match event {
            Event::New { row } => Outcome::Made(*row),
            Event::Send { step, images } => {
                let terms = images.iter().map(|image| player.term(image)).collect();
                match terms {
                    Some(terms) => Outcome::Sent(*step, terms),
                    None => Outcome::Failure,
                }
            }
            Event::Check { placeholder, image } => {
                // "A CHECK succeeds if both terms are equal."
                match (player.bound.get(placeholder), player.term(image)) {
                    (Some(bound), Some(term)) if *bound == term => Outcome::Bound(0, Vec::new()),
                    _ => Outcome::Failure,
                }
            }
            Event::Open {
                placeholder,
                first,
                n,
                key,
            } => {
                // "An OPEN succeeds if the term is a cipher with n contents whose key is the
                // partner of the key image's term."
                match (player.bound.get(placeholder), player.term(key)) {
                    (Some(Term::Cipher(own, contents)), Some(key))
                        if contents.len() == *n as usize && **own == key.partner() =>
                    {
                        Outcome::Bound(*first, contents.clone())
                    }
                    _ => Outcome::Failure,
                }
            }
            Event::Receive { .. } | Event::End { .. } => Outcome::Nothing,
        }
    }

    /// Lets an outcome happen; whether an event got done.
    fn apply(&mut self, party: u32, outcome: Outcome) -> bool {
        let player = &mut self.players[party as usize];
        match outcome {
            Outcome::Nothing => return false,
            Outcome::Failure => {
                player.halted = true;
                return false;
            }
            Outcome::Made(row) => {
                // To make is to get what nobody has: were the row's own atom anywhere already, the
                // party would hold another atom under its row, and a comparison would tell.
                let fresh = self.present.insert(row);
                let atom = if fresh { row } else { self.unused };
                self.unused += u32::from(!fresh);
                player.itself.insert(row, Term::Atom(atom));
                self.made.push((party, row));
            }
            Outcome::Sent(step, terms) => {
                self.sent.insert(step, terms);
            }
            Outcome::Bound(first, terms) => player.bound.extend((first..).zip(terms)),
        }
        player.done += 1;
        true
    }
}

impl Player {
    /// The term of an image; nothing where the party hasn't what the image names, which a
    /// translated program never asks for.
    pub fn term(&self, image: &Image) -> Option<Term> {
        let all = |images: &[Image]| -> Option<Vec<Term>> { images.iter().map(|image| self.term(image)).collect() };
        Some(match image {
            Image::Itself(row) => self.itself.get(row)?.clone(),
            Image::Placeholder(number) => self.bound.get(number)?.clone(),
            Image::Operation(tag, arguments) => Term::Operation(*tag, all(arguments)?),
            Image::Cipher(key, contents) => Term::Cipher(Box::new(self.term(key)?), all(contents)?),
            Image::Public(part) => Term::Public(Box::new(self.term(part)?)),
            Image::Private(part) => Term::Private(Box::new(self.term(part)?)),
        })
    }
}

/// Adds the atoms that occur in a term, at any depth.
fn atoms(term: &Term, present: &mut BTreeSet<u32>) {
    if let Term::Atom(atom) = term {
        present.insert(*atom);
    }
    for part in term.parts() {
        atoms(part, present);
    }
}
