//! The translation of figure 3 as document 01 reads it, with document 02's order of receiving, its parties that make
//! nothing and its sources: how each party knows each row, one program per party (refusals 10, 13 and 12), the listing's
//! words, and the line that the small program prints.

use crate::book::{self, Book, Refusal, Step, Stop, Terms, Unmade, READ};
use crate::term::{Form, Shared, SharedMap, SharedSet};
use crate::words;

/// "It lends 16,384 words for the output."
pub const LENT: usize = 16_384;

#[derive(Clone, PartialEq, Eq, Debug)]
pub enum Image {
    /// Held as itself: the row.
    Itself(u32),
    Placeholder(u32),
    Operation(u32, Vec<Image>),
    Cipher(Box<Image>, Vec<Image>),
    Public(Box<Image>),
    Private(Box<Image>),
}

#[derive(Clone, PartialEq, Eq, Debug)]
pub enum Event {
    New {
        row: u32,
    },
    Send {
        step: u32,
        images: Vec<Image>,
    },
    Receive {
        step: u32,
        first: u32,
        n: u32,
    },
    Check {
        placeholder: u32,
        image: Image,
    },
    Open {
        placeholder: u32,
        first: u32,
        n: u32,
        key: Image,
    },
    /// "Triples of row, placeholder, step": all stored rows, in the order of storing.
    End {
        stored: Vec<[u32; 3]>,
    },
}

/// One party's events, END last.
pub type Program = Vec<Event>;

/// How a row is known: "given at the start, made at step s, or stored at step s", and then as a placeholder.
#[derive(Clone, Copy, PartialEq, Eq, Debug)]
pub enum Source {
    Given,
    Made { step: u32 },
    Stored { step: u32, placeholder: u32 },
}

impl Source {
    /// The image of a row that is known so.
    pub fn image(self, row: u32) -> Image {
        match self {
            Source::Given | Source::Made { .. } => Image::Itself(row),
            Source::Stored { placeholder, .. } => Image::Placeholder(placeholder),
        }
    }
}

/// What a party holds: "for each party a dictionary sends rows to images", by how they are known. The rows are there as
/// their terms, which comes to the same, as equal terms have equal row numbers.
#[derive(Clone, Default)]
pub struct Dictionary {
    entries: SharedMap<(u32, Source)>,
}

impl Dictionary {
    /// How the term is known; nothing if it isn't in the dictionary, even if it could be built.
    pub fn source(&self, term: &Shared) -> Option<Source> {
        self.entries.get(term).map(|(_, source)| *source)
    }

    fn entry(&self, term: &Shared) -> Option<Image> {
        self.entries.get(term).map(|(row, source)| source.image(*row))
    }

    /// The first source stays.
    fn enter(&mut self, term: &Shared, row: u32, source: Source) {
        self.entries.entry(term.clone()).or_insert((row, source));
    }

    /// The image of a buildable term; nothing if it isn't buildable. "The row is in the dictionary;
    /// or it isn't an atom and all its parts are buildable."
    pub fn image(&self, term: &Shared) -> Option<Image> {
        if let Some(entry) = self.entry(term) {
            return Some(entry);
        }
        let all = |parts: &[Shared]| -> Option<Vec<Image>> { parts.iter().map(|part| self.image(part)).collect() };
        Some(match term.form() {
            Form::Atom(_) => return None,
            Form::Operation(tag, arguments) => Image::Operation(*tag, all(arguments)?),
            Form::Cipher(key, contents) => Image::Cipher(Box::new(self.image(key)?), all(contents)?),
            Form::Public(part) => Image::Public(Box::new(self.image(part)?)),
            Form::Private(part) => Image::Private(Box::new(self.image(part)?)),
        })
    }

    /// For a cipher the partner of whose key is buildable: that partner's image, and the contents.
    pub fn opening<'t>(&self, term: &'t Shared) -> Option<(Image, &'t [Shared])> {
        match term.form() {
            Form::Cipher(key, contents) => Some((self.image(&key.partner())?, contents)),
            _ => None,
        }
    }

    /// Of the atoms that sending a term would make, what is said of the first of which anything is, in building order.
    fn first_made<T>(&self, term: &Shared, said: &impl Fn(&Shared) -> Option<T>) -> Option<T> {
        if self.source(term).is_some() {
            return None;
        }
        match term.form() {
            Form::Atom(_) => said(term),
            _ => term.parts().find_map(|part| self.first_made(part, said)),
        }
    }
}

/// One party on its way through the steps.
struct Side {
    dictionary: Dictionary,
    /// Whether it may make atoms.
    makes: bool,
    /// The step that it is in.
    step: u32,
    /// "A party's placeholders count from 0": the next one.
    next: u32,
    events: Program,
    stored: Vec<[u32; 3]>,
}

impl Side {
    /// The next `n` placeholders; the first of them.
    fn placeholders(&mut self, n: usize) -> u32 {
        let first = self.next;
        self.next += n as u32;
        first
    }

    /// Sending one message: its image, or the first atom that would have to be made and can't.
    fn build(&mut self, term: &Shared, taken: &Taken) -> Result<Image, (Unmade, u32)> {
        // "A row in the dictionary gives its entry. Else parts first, a cipher's key before its
        // contents."
        if let Some(entry) = self.dictionary.entry(term) {
            return Ok(entry);
        }
        Ok(match term.form() {
            Form::Atom(row) => self.make(*row, term, taken)?,
            Form::Operation(tag, arguments) => Image::Operation(*tag, self.build_all(arguments, taken)?),
            Form::Cipher(key, contents) => {
                let key = Box::new(self.build(key, taken)?);
                Image::Cipher(key, self.build_all(contents, taken)?)
            }
            Form::Public(part) => Image::Public(Box::new(self.build(part, taken)?)),
            Form::Private(part) => Image::Private(Box::new(self.build(part, taken)?)),
        })
    }

    fn build_all(&mut self, terms: &[Shared], taken: &Taken) -> Result<Vec<Image>, (Unmade, u32)> {
        terms.iter().map(|term| self.build(term, taken)).collect()
    }

    /// "An atom not in the dictionary is made, and is from then on known as itself." Nothing else asks for the mark.
    fn make(&mut self, row: u32, atom: &Shared, taken: &Taken) -> Result<Image, (Unmade, u32)> {
        if let Some(why) = self.unmade(atom, taken) {
            return Err((why, row));
        }
        self.events.push(Event::New { row });
        let source = Source::Made { step: self.step };
        self.dictionary.enter(atom, row, source);
        Ok(source.image(row))
    }

    /// What keeps the party from making an atom that it lacks: "10 if it is taken and else 13".
    fn unmade(&self, atom: &Shared, taken: &Taken) -> Option<Unmade> {
        match (taken.has(atom), self.makes) {
            (true, _) => Some(Unmade::Taken),
            (false, false) => Some(Unmade::Maker),
            (false, true) => None,
        }
    }

    /// Receiving: the terms have the placeholders from `first` on, and are gone through left to right. "A cipher whose
    /// key's partner is buildable is opened first; then a buildable row is compared; then storing" (document 02).
    fn receive(&mut self, terms: &[Shared], first: u32, rows: &SharedMap<u32>) {
        for (term, placeholder) in terms.iter().zip(first..) {
            if let Some((key, contents)) = self.dictionary.opening(term) {
                let first = self.placeholders(contents.len());
                self.events.push(Event::Open {
                    placeholder,
                    first,
                    n: contents.len() as u32,
                    key,
                });
                self.receive(contents, first, rows);
            } else if let Some(image) = self.dictionary.image(term) {
                self.events.push(Event::Check { placeholder, image });
            } else {
                let (row, step) = (rows[term], self.step);
                self.stored.push([row, placeholder, step]);
                self.dictionary.enter(term, row, Source::Stored { step, placeholder });
            }
        }
    }
}

/// All terms that occur at any depth in a party's starting knowledge or in a message of an earlier
/// step, and the parties' names: the atoms among them are the taken ones.
#[derive(Clone, Default)]
struct Taken {
    terms: SharedSet,
}

impl Taken {
    fn add(&mut self, term: &Shared) {
        // What has been seen has its parts in already.
        if self.terms.insert(term.clone()) {
            term.parts().for_each(|part| self.add(part));
        }
    }

    fn has(&self, atom: &Shared) -> bool {
        self.terms.contains(atom)
    }
}

/// The translation of a book on its way through the steps.
pub struct Translation {
    pub terms: Vec<Shared>,
    rows: SharedMap<u32>,
    taken: Taken,
    sides: Vec<Side>,
    step: u32,
}

impl Translation {
    /// Before the first step: "it starts with each known row as itself".
    pub fn start(book: &Book) -> Translation {
        let terms = book.shared();
        let mut taken = Taken::default();
        let mut sides = Vec::with_capacity(book.parties.len());
        for party in &book.parties {
            taken.add(&terms[party.name as usize]);
            let mut dictionary = Dictionary::default();
            for row in &party.known {
                let term = &terms[*row as usize];
                taken.add(term);
                dictionary.enter(term, *row, Source::Given);
            }
            sides.push(Side {
                dictionary,
                makes: party.makes,
                step: 0,
                next: 0,
                events: Vec::new(),
                stored: Vec::new(),
            });
        }
        Translation {
            rows: terms.iter().cloned().zip(0..).collect(),
            terms,
            taken,
            sides,
            step: 0,
        }
    }

    /// After the last step, or where the walk stops, "at the first atom that can't be made": the steps are gone through
    /// in order, so that is at the smallest step.
    pub fn whole(book: &Book) -> Result<Translation, Stop> {
        let mut translation = Translation::start(book);
        for step in &book.steps {
            translation.step(step)?;
        }
        Ok(translation)
    }

    /// What a party holds by now.
    pub fn dictionary(&self, party: u32) -> &Dictionary {
        &self.sides[party as usize].dictionary
    }

    /// How a party knows a row by now.
    pub fn source(&self, party: u32, row: u32) -> Option<Source> {
        self.dictionary(party).source(&self.terms[row as usize])
    }

    /// Why a party can't send a term at the next step; nothing if it can.
    pub fn stops(&self, party: u32, term: &Shared) -> Option<Unmade> {
        let side = &self.sides[party as usize];
        side.dictionary.first_made(term, &|atom| side.unmade(atom, &self.taken))
    }

    /// The next step: "a party that is neither sender nor receiver does nothing".
    pub fn step(&mut self, step: &Step) -> Result<(), Stop> {
        let number = self.step;
        self.step += 1;
        let message = |row: &u32| self.terms[*row as usize].clone();
        let messages: Vec<Shared> = step.messages.iter().map(message).collect();

        let sender = &mut self.sides[step.sender as usize];
        sender.step = number;
        let stop = |(why, row)| Stop { why, step: number, row };
        let images = sender.build_all(&messages, &self.taken).map_err(stop)?;
        sender.events.push(Event::Send { step: number, images });

        let receiver = &mut self.sides[step.receiver as usize];
        receiver.step = number;
        let first = receiver.placeholders(messages.len());
        receiver.events.push(Event::Receive {
            step: number,
            first,
            n: messages.len() as u32,
        });
        receiver.receive(&messages, first, &self.rows);

        messages.iter().for_each(|term| self.taken.add(term));
        Ok(())
    }

    /// The programs: after its last step each party's END has "all stored rows, in the order of
    /// storing".
    pub fn end(self) -> Vec<Program> {
        let end = |mut side: Side| {
            side.events.push(Event::End { stored: side.stored });
            side.events
        };
        self.sides.into_iter().map(end).collect()
    }
}

/// One program per party of a book that keeps its rules, or the refusal where the walk stops.
pub fn programs(book: &Book) -> Result<Vec<Program>, Refusal> {
    Ok(Translation::whole(book)?.end())
}

/// The listing: "word 0 is Q; then for each party offset and count of its listing; then the
/// listings in party order".
pub fn listing(programs: &[Program]) -> Vec<u32> {
    let mut heads = vec![programs.len() as u32];
    let mut parts = Vec::new();
    let start = 1 + 2 * programs.len();
    for program in programs {
        let part = part(program);
        heads.extend([start + parts.len(), part.len()].map(|word| word as u32));
        parts.extend(part);
    }
    heads.extend(parts);
    heads
}

/// A party's part of the listing: the words of its program.
pub fn part(program: &Program) -> Vec<u32> {
    let mut words = Vec::new();
    program.iter().for_each(|event| event.write(&mut words));
    words
}

/// A word of a program, as what it stands there.
#[derive(Clone, Copy, PartialEq, Eq, Debug)]
pub enum Slot {
    /// A code, a row, a step, a tag or a count.
    Plain(u32),
    /// A placeholder that is made use of.
    Use(u32),
    /// The first of `n` placeholders that are handed out; where `n` is 0, the one that would come next.
    Run { first: u32, n: u32 },
}

impl Slot {
    pub fn word(self) -> u32 {
        match self {
            Slot::Plain(word) | Slot::Use(word) | Slot::Run { first: word, .. } => word,
        }
    }
}

impl Event {
    /// The event's words.
    pub fn write(&self, words: &mut Vec<u32>) {
        self.spell(&mut |slot| words.push(slot.word()));
    }

    /// The event's words, one after another, each as what it is.
    pub fn spell(&self, put: &mut impl FnMut(Slot)) {
        match self {
            Event::New { row } => plain(&[1, *row], put),
            Event::Send { step, images } => {
                plain(&[2, *step, images.len() as u32], put);
                images.iter().for_each(|image| image.spell(put));
            }
            Event::Receive { step, first, n } => {
                plain(&[3, *step], put);
                run(*first, *n, put);
            }
            Event::Check { placeholder, image } => {
                plain(&[4], put);
                put(Slot::Use(*placeholder));
                image.spell(put);
            }
            Event::Open {
                placeholder,
                first,
                n,
                key,
            } => {
                plain(&[5], put);
                put(Slot::Use(*placeholder));
                run(*first, *n, put);
                key.spell(put);
            }
            Event::End { stored } => {
                plain(&[6, stored.len() as u32], put);
                for [row, placeholder, step] in stored {
                    plain(&[*row], put);
                    put(Slot::Use(*placeholder));
                    plain(&[*step], put);
                }
            }
        }
    }
}

impl Image {
    /// The image's words.
    pub fn write(&self, words: &mut Vec<u32>) {
        self.spell(&mut |slot| words.push(slot.word()));
    }

    /// "Images in prefix words"; a cipher's key stands after the count of its contents, before them.
    fn spell(&self, put: &mut impl FnMut(Slot)) {
        match self {
            Image::Itself(row) => plain(&[0, *row], put),
            Image::Placeholder(number) => {
                plain(&[1], put);
                put(Slot::Use(*number));
            }
            Image::Operation(tag, arguments) => {
                plain(&[2, *tag, arguments.len() as u32], put);
                arguments.iter().for_each(|image| image.spell(put));
            }
            Image::Cipher(key, contents) => {
                plain(&[3, contents.len() as u32], put);
                key.spell(put);
                contents.iter().for_each(|image| image.spell(put));
            }
            Image::Public(part) => {
                plain(&[4], put);
                part.spell(put);
            }
            Image::Private(part) => {
                plain(&[5], put);
                part.spell(put);
            }
        }
    }
}

fn plain(words: &[u32], put: &mut impl FnMut(Slot)) {
    words.iter().for_each(|word| put(Slot::Plain(*word)));
}

/// The first of the placeholders that are handed out, and how many there are.
fn run(first: u32, n: u32, put: &mut impl FnMut(Slot)) {
    put(Slot::Run { first, n });
    put(Slot::Plain(n));
}

/// Translates a book into `out`: the listing's length, or the first refusal of 1 to 10, 13 and 12. A
/// refusal leaves all of `out` as it was, an acceptance the words past the length.
pub fn translate(words: &[u32], out: &mut [u32]) -> Result<usize, Refusal> {
    let listing = listing(&programs(&book::read(words)?)?);
    lend(&listing, out)
}

/// Writes an output into lent words, or gives refusal 12, "the last refusal tested".
pub fn lend(output: &[u32], out: &mut [u32]) -> Result<usize, Refusal> {
    match out.get_mut(..output.len()) {
        Some(lent) => lent.copy_from_slice(output),
        None => return Err(Refusal::new(12, &[output.len() as u32])),
    }
    Ok(output.len())
}

/// The line the small program prints for a file of these bytes, without the line's end.
pub fn print(bytes: &[u8]) -> String {
    let words = words::of_bytes(words::first(bytes, READ));
    let mut out = vec![0; LENT];
    match words.and_then(|words| translate(&words, &mut out)) {
        Ok(length) => words::line(&out[..length]),
        Err(refusal) => refusal.to_string(),
    }
}
