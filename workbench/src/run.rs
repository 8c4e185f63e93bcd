//! Runs: which party moves when, and what each move did. Which moves to ask is worked out here; what a move did is the
//! difference of two proved rehearsals, and nothing else is believed.

use crate::arguments::Call;
use crate::failure::Failure;
use crate::guard;
use crate::listing::{Event, Program};
use crate::progress::Progress;
use crate::proved::{rehearse, Answers, MOST_MOVES};
use crate::subject::Subject;

/// In which order the parties move.
#[derive(Clone, PartialEq, Eq, Debug)]
pub enum Order {
    /// Step by step: the sender up to its SEND, then the receiver up to what it does for a later step.
    Narration,
    /// A move each, in turn.
    Round,
    /// The last party as far as it goes, then the one before it, again and again.
    Reverse,
    /// Whoever a generator with this seed picks among those that can move.
    Random(u64),
    /// Just these, whether they do something or not.
    Moves(Vec<u32>),
}

/// A run: the moves that did something, and where it ended.
#[derive(Clone, PartialEq, Eq, Debug)]
pub struct Run {
    pub moves: Vec<Move>,
    /// The events that each party has done, END not counted.
    pub done: Vec<u32>,
    /// The moves that were asked for and did nothing; an order made here has none.
    pub idle: Vec<Idle>,
    /// How each party is left.
    pub ends: Vec<Next>,
    /// Whether more was to be asked than can be: 4,096 moves.
    pub cut: bool,
}

/// A move that did an event.
#[derive(Clone, PartialEq, Eq, Debug)]
pub struct Move {
    pub party: u32,
    /// The event's place in the party's program.
    pub event: usize,
    /// The events that each party has done after it.
    pub done: Vec<u32>,
}

/// A move that did nothing, as its party waits or has finished.
#[derive(Clone, Copy, PartialEq, Eq, Debug)]
pub struct Idle {
    /// How many of the run's moves come before it.
    pub before: usize,
    pub party: u32,
    pub next: Next,
}

/// What is next for a party.
#[derive(Clone, Copy, PartialEq, Eq, Debug)]
pub enum Next {
    /// END alone is left.
    Finished,
    /// It waits for this step, which is not sent yet.
    Waits {
        step: u32,
    },
    CanMove,
}

impl Order {
    /// The order that a command's `--order` or `--moves` asks for; without them, that of the narration.
    pub fn asked(call: &Call, subject: &Subject) -> Result<Order, Failure> {
        match (call.text("--order")?, call.text("--moves")?) {
            (Some(_), Some(_)) => Err(Failure::command_line(
                "`--order` and `--moves` each say who moves when; one of them is enough",
            )),
            (Some(name), None) => Order::named(&name),
            (None, Some(names)) => Order::moves(&names, subject),
            (None, None) => Ok(Order::Narration),
        }
    }

    fn named(name: &str) -> Result<Order, Failure> {
        let seed = name.strip_prefix("random:").map(str::parse);
        match (name, seed) {
            ("narration", _) => Ok(Order::Narration),
            ("round", _) => Ok(Order::Round),
            ("reverse", _) => Ok(Order::Reverse),
            (_, Some(Ok(seed))) => Ok(Order::Random(seed)),
            ("random", _) | (_, Some(Err(_))) => Err(Failure::command_line(format!(
                "`{name}`: a random order needs its seed, a number: random:7"
            ))),
            _ => Err(Failure::command_line(format!(
                "`{name}` is no order; the orders are narration, round, reverse and random:SEED"
            ))),
        }
    }

    /// Of names with commas between them; of none, no moves.
    fn moves(names: &str, subject: &Subject) -> Result<Order, Failure> {
        let written = names.split(',').map(str::trim).filter(|_| !names.trim().is_empty());
        let numbers = written.map(|name| subject.meant(name));
        Ok(Order::Moves(numbers.collect::<Result<_, _>>()?))
    }
}

/// Plays a subject's programs in this order, until every party has finished, no move is left, or no more can be asked.
pub fn run(subject: &Subject, answers: &Answers, order: &Order) -> Result<Run, Failure> {
    let mut playing = Playing {
        subject,
        programs: &answers.programs,
        schedule: Vec::new(),
        progress: Progress::of("moves"),
        run: Run {
            moves: Vec::new(),
            done: asked(subject, &[])?,
            idle: Vec::new(),
            ends: Vec::new(),
            cut: false,
        },
    };
    match order {
        Order::Narration => playing.narration()?,
        Order::Round => playing.round()?,
        Order::Reverse => playing.reverse()?,
        Order::Random(seed) => playing.random(*seed)?,
        Order::Moves(moves) => playing.given(moves)?,
    }
    playing.end()
}

fn asked(subject: &Subject, schedule: &[u32]) -> Result<Vec<u32>, Failure> {
    let told = rehearse(subject, schedule);
    told.map_err(|refusal| Failure::guard(format!("a listing and no rehearsal: {refusal}")))
}

/// A run that is being made. Its state is the counts that the last rehearsal told.
struct Playing<'s> {
    subject: &'s Subject,
    programs: &'s [Program],
    schedule: Vec<u32>,
    progress: Progress,
    run: Run,
}

impl Playing<'_> {
    fn parties(&self) -> impl DoubleEndedIterator<Item = u32> {
        0..self.programs.len() as u32
    }

    fn event(&self, party: u32) -> Option<&Event> {
        let at = self.run.done[party as usize] as usize;
        self.programs[party as usize].get(at)
    }

    /// What is next for a party, by the counts and the programs. It says which moves are worth asking; a rehearsal that
    /// says otherwise breaks a guard.
    fn next(&self, party: u32) -> Next {
        match self.event(party) {
            None | Some(Event::End { .. }) => Next::Finished,
            Some(Event::Receive { step, .. }) if !self.sent(*step) => Next::Waits { step: *step },
            Some(_) => Next::CanMove,
        }
    }

    fn can_move(&self, party: u32) -> bool {
        self.next(party) == Next::CanMove
    }

    fn sent(&self, asked: u32) -> bool {
        let sender = self.subject.book.steps[asked as usize].sender as usize;
        let done = &self.programs[sender][..self.run.done[sender] as usize];
        done.iter()
            .any(|event| matches!(event, Event::Send { step, .. } if *step == asked))
    }

    /// Asks for a move, and notes what it did; false where no more can be asked.
    fn ask(&mut self, party: u32) -> Result<bool, Failure> {
        if self.schedule.len() == MOST_MOVES {
            self.run.cut = true;
            return Ok(false);
        }
        self.schedule.push(party);
        self.progress.tell(self.schedule.len());
        let (next, done) = (self.next(party), asked(self.subject, &self.schedule)?);
        let event = self.run.done[party as usize] as usize;
        if guard::moved(&self.run.done, &done, party)? != (next == Next::CanMove) {
            return Err(Failure::guard("a move did not do what the programs say is next"));
        }
        match next {
            Next::CanMove => {
                self.run.done.clone_from(&done);
                self.run.moves.push(Move { party, event, done });
            }
            _ => {
                let before = self.run.moves.len();
                self.run.idle.push(Idle { before, party, next });
            }
        }
        Ok(true)
    }

    /// Moves a party as long as it can and its next event is one of these; false where no more can be asked.
    fn ask_while(&mut self, party: u32, wanted: impl Fn(&Event) -> bool) -> Result<bool, Failure> {
        while self.can_move(party) && self.event(party).is_some_and(&wanted) {
            if !self.ask(party)? {
                return Ok(false);
            }
        }
        Ok(true)
    }

    fn narration(&mut self) -> Result<(), Failure> {
        for (number, step) in (0..).zip(&self.subject.book.steps) {
            while !self.sent(number) && self.can_move(step.sender) {
                if !self.ask(step.sender)? {
                    return Ok(());
                }
            }
            if !self.ask_while(step.receiver, |event| receives(event, number))? {
                return Ok(());
            }
        }
        // No event but END is left to anyone; where one were, it would be done here.
        self.reverse()
    }

    fn round(&mut self) -> Result<(), Failure> {
        while self.parties().any(|party| self.can_move(party)) {
            for party in self.parties() {
                if self.can_move(party) && !self.ask(party)? {
                    return Ok(());
                }
            }
        }
        Ok(())
    }

    fn reverse(&mut self) -> Result<(), Failure> {
        while self.parties().any(|party| self.can_move(party)) {
            for party in self.parties().rev() {
                if !self.ask_while(party, |_| true)? {
                    return Ok(());
                }
            }
        }
        Ok(())
    }

    fn random(&mut self, seed: u64) -> Result<(), Failure> {
        let mut generator = Generator(seed);
        loop {
            let able: Vec<u32> = self.parties().filter(|party| self.can_move(*party)).collect();
            if able.is_empty() || !self.ask(able[generator.below(able.len())])? {
                return Ok(());
            }
        }
    }

    fn given(&mut self, moves: &[u32]) -> Result<(), Failure> {
        for party in moves {
            if !self.ask(*party)? {
                break;
            }
        }
        Ok(())
    }

    /// The run, with how each party is left: where one move more can be asked, the rehearsal has to agree.
    fn end(mut self) -> Result<Run, Failure> {
        for party in self.parties() {
            let next = self.next(party);
            if self.schedule.len() < MOST_MOVES {
                self.schedule.push(party);
                let done = asked(self.subject, &self.schedule)?;
                self.schedule.pop();
                if guard::moved(&self.run.done, &done, party)? != (next == Next::CanMove) {
                    return Err(Failure::guard("a party is not left as the programs say"));
                }
            }
            self.run.ends.push(next);
        }
        Ok(self.run)
    }
}

/// Whether an event is done for what this step brings, by its receiver. What it makes, it makes for a later step.
fn receives(event: &Event, number: u32) -> bool {
    match event {
        Event::Receive { step, .. } => *step <= number,
        Event::Check { .. } | Event::Open { .. } => true,
        Event::New { .. } | Event::Send { .. } | Event::End { .. } => false,
    }
}

/// A generator of numbers of our own, so that a seed gives the same run everywhere (splitmix64).
struct Generator(u64);

impl Generator {
    fn next(&mut self) -> u64 {
        self.0 = self.0.wrapping_add(0x9e37_79b9_7f4a_7c15);
        let mut mixed = self.0;
        mixed = (mixed ^ (mixed >> 30)).wrapping_mul(0xbf58_476d_1ce4_e5b9);
        mixed = (mixed ^ (mixed >> 27)).wrapping_mul(0x94d0_49bb_1331_11eb);
        mixed ^ (mixed >> 31)
    }

    /// Some number below this one, which is small.
    fn below(&mut self, most: usize) -> usize {
        (self.next() % most as u64) as usize
    }
}

#[cfg(test)]
mod tests {
    use super::*;
    use crate::input::Input;
    use crate::subject::{open, Opened};
    use std::path::{Path, PathBuf};

    fn subject(input: Input) -> Option<(Subject, Answers)> {
        match open(&input).unwrap() {
            Opened::Subject(subject) => {
                let answers = Answers::of(&subject).unwrap().ok()?;
                Some((*subject, answers))
            }
            _ => None,
        }
    }

    fn opened(path: &Path) -> Option<(Subject, Answers)> {
        subject(Input::read(path.as_os_str()).unwrap())
    }

    fn book(name: &str) -> (Subject, Answers) {
        let path = PathBuf::from(format!("../books/{name}"));
        opened(&path).unwrap()
    }

    fn schedule(run: &Run) -> Vec<(u32, usize)> {
        run.moves.iter().map(|step| (step.party, step.event)).collect()
    }

    #[test]
    fn orders_of_an_example() {
        let (subject, answers) = book("example-1.narration");
        let run = |order: Order| run(&subject, &answers, &order).unwrap();
        let narration = run(Order::Narration);
        assert_eq!(
            schedule(&narration),
            [(1, 0), (1, 1), (0, 0), (0, 1), (1, 2), (1, 3), (1, 4), (1, 5)]
        );
        assert_eq!((narration.done, narration.cut), (vec![2, 6], false));
        assert_eq!(narration.ends, [Next::Finished, Next::Finished]);
        assert_eq!(schedule(&run(Order::Round))[..4], [(1, 0), (1, 1), (0, 0), (0, 1)],);
        assert_eq!(schedule(&run(Order::Reverse))[..3], [(1, 0), (1, 1), (0, 0)]);
        assert_eq!(run(Order::Random(7)), run(Order::Random(7)));
    }

    #[test]
    fn given_moves() {
        let (subject, answers) = book("example-1.narration");
        let order = Order::moves("A, B,B", &subject).unwrap();
        let told = run(&subject, &answers, &order).unwrap();
        assert_eq!(schedule(&told), [(1, 0), (1, 1)]);
        let next = Next::Waits { step: 0 };
        assert_eq!(
            told.idle,
            [Idle {
                before: 0,
                party: 0,
                next
            }]
        );
        assert_eq!(told.ends, [Next::CanMove, Next::Waits { step: 1 }]);
        assert_eq!(
            Order::moves("A,Eve", &subject).map_err(|failure| failure.status),
            Err(2)
        );
        for wrong in ["random", "random:", "random:x", "random:-1", "Round"] {
            assert_eq!(Order::named(wrong).map_err(|failure| failure.status), Err(2), "{wrong}");
        }
    }

    /// Nobody makes anything before it is its turn to send it.
    #[test]
    fn a_narrations_order_makes_late() {
        let text = "party A\nparty B\nparty C\nA -> B: M\nC -> A: K\nB -> A: N\nA -> B: O\n";
        let (subject, answers) = subject(Input {
            name: "text".to_string(),
            path: None,
            bytes: text.into(),
        })
        .unwrap();
        let told = run(&subject, &answers, &Order::Narration).unwrap();
        let expected = [
            [(0, 0), (0, 1), (1, 0)],
            [(2, 0), (2, 1), (0, 2)],
            [(1, 1), (1, 2), (0, 3)],
            [(0, 4), (0, 5), (1, 3)],
        ];
        assert_eq!(schedule(&told), expected.concat());
    }

    #[test]
    fn more_moves_than_can_be_asked() {
        let (subject, answers) = book("example-1.narration");
        let told = run(&subject, &answers, &Order::Moves(vec![0; MOST_MOVES])).unwrap();
        assert_eq!((told.idle.len(), told.cut), (MOST_MOVES, false));
        let told = run(&subject, &answers, &Order::Moves(vec![0; MOST_MOVES + 1])).unwrap();
        assert_eq!((told.idle.len(), told.cut), (MOST_MOVES, true));
    }

    /// Every playable narration ends in every order, with each move one event more.
    #[test]
    fn all_narrations_end() {
        let mut seen = 0;
        for entry in std::fs::read_dir("../books").unwrap() {
            let path = entry.unwrap().path();
            let small = std::fs::metadata(&path).unwrap().len() < 3_000;
            if path.extension().is_none_or(|end| end != "narration") || !small {
                continue;
            }
            let Some((subject, answers)) = opened(&path) else {
                continue;
            };
            let events: usize = answers.programs.iter().map(|program| program.len() - 1).sum();
            if events > 300 {
                continue;
            }
            for order in [Order::Narration, Order::Round, Order::Reverse, Order::Random(1)] {
                let told = run(&subject, &answers, &order).unwrap();
                assert_eq!((told.moves.len(), told.cut), (events, false), "{}", path.display());
                assert!(told.ends.iter().all(|end| *end == Next::Finished) && told.idle.is_empty());
            }
            seen += 1;
        }
        assert!(seen > 60, "{seen} narrations");
    }
}
