//! What was met while the routes were compared, counted and told: answers by their kind, and everything that a call on
//! bytes may have which one on words has not.

use super::trial::{Asked, Judged, Room, Trial};
use crate::book;
use crate::rehearse::MOST_MOVES;
use std::collections::BTreeMap;
use std::fmt;

#[derive(Default)]
pub struct Tally {
    trials: usize,
    calls: usize,
    answers: BTreeMap<(&'static str, Kind), usize>,
    met: BTreeMap<&'static str, usize>,
}

/// A kind of answer: a refusal by its number.
#[derive(Clone, Copy, PartialEq, Eq, PartialOrd, Ord)]
enum Kind {
    Accepted,
    Yes,
    No,
    Same,
    Differs,
    Refused(u64),
}

impl fmt::Display for Kind {
    fn fmt(&self, out: &mut fmt::Formatter<'_>) -> fmt::Result {
        match self {
            Kind::Accepted => out.write_str("accepted"),
            Kind::Yes => out.write_str("yes"),
            Kind::No => out.write_str("no"),
            Kind::Same => out.write_str("same"),
            Kind::Differs => out.write_str("differs"),
            Kind::Refused(number) => write!(out, "refused {number}"),
        }
    }
}

impl Tally {
    pub fn trial(&mut self, trial: &Trial) {
        self.trials += 1;
        let odd = |bytes: &[u8]| !bytes.len().is_multiple_of(4);
        let (odd_book, odd_schedule) = (odd(&trial.book), odd(&trial.schedule));
        self.meet(odd_book && !odd_schedule, "odd book");
        self.meet(odd_schedule && !odd_book, "odd schedule");
        self.meet(odd_book && odd_schedule, "both odd");
        self.meet(trial.book.len() > 4 * book::LONGEST, "longer than any book");
        self.meet(trial.schedule.len() / 4 == MOST_MOVES + 1, "4,097 moves");
    }

    /// A call in one room, and its packed answer.
    pub fn call(&mut self, function: &'static str, answer: u64, room: Room) {
        self.answer(
            function,
            match answer & 0xff {
                0 => Kind::Accepted,
                number => Kind::Refused(number),
            },
        );
        let spare = ["no spare byte", "1 spare", "2 spare", "3 spare"];
        self.meet(true, spare[room.bytes % 4]);
        self.meet(true, room.kind);
    }

    /// A question, and its packed answer.
    pub fn question(&mut self, asked: &Asked, answer: u64) {
        self.answer(
            "ask",
            match (answer & 0xff, answer >> 8) {
                (0, 0) => Kind::No,
                (0, _) => Kind::Yes,
                (number, _) => Kind::Refused(number),
            },
        );
        self.meet(true, asked.kind);
    }

    /// A listing, and the packed verdict on it.
    pub fn listing(&mut self, judged: &Judged, verdict: u64) {
        self.answer(
            "judge",
            match unpacked(verdict) {
                (0, 0, _) => Kind::Differs,
                (0, ..) => Kind::Same,
                (number, ..) => Kind::Refused(number),
            },
        );
        self.meet(true, judged.kind);
    }

    fn answer(&mut self, function: &'static str, kind: Kind) {
        self.calls += 1;
        *self.answers.entry((function, kind)).or_default() += 1;
    }

    fn meet(&mut self, met: bool, what: &'static str) {
        if met {
            *self.met.entry(what).or_default() += 1;
        }
    }

    pub fn add(&mut self, other: Tally) {
        self.trials += other.trials;
        self.calls += other.calls;
        for (kind, count) in other.answers {
            *self.answers.entry(kind).or_default() += count;
        }
        for (what, count) in other.met {
            *self.met.entry(what).or_default() += count;
        }
    }

    /// A line for the answers of each function that was called, what was met, and last how many differences there are.
    pub fn told(&self, differences: usize) -> String {
        let mut lines = Vec::new();
        for function in ["translate", "rehearse", "summary", "ask", "judge"] {
            let own = self.answers.iter().filter(|((name, _), _)| *name == function);
            let told: Vec<String> = own.map(|((_, kind), count)| format!("{kind}: {count}")).collect();
            if !told.is_empty() {
                lines.push(format!("{function}: {}", told.join(", ")));
            }
        }
        let met: Vec<String> = (self.met.iter())
            .map(|(what, count)| format!("{what}: {count}"))
            .collect();
        lines.push(format!("met: {}", met.join(", ")));
        lines.push(format!(
            "{} books and schedules, {} calls on each route, {differences} differences",
            self.trials, self.calls
        ));
        lines.join("\n")
    }
}

/// The number of a packed answer, and its two values.
fn unpacked(packed: u64) -> (u64, u64, u64) {
    (packed & 0xff, packed >> 8 & 0xffff_ffff, packed >> 40)
}

/// A packed answer in words.
pub fn answer(packed: u64) -> String {
    match unpacked(packed) {
        (0, first, 0) => format!("{first} words"),
        (number, first, 0) => format!("refused {number} {first}"),
        (number, first, second) => format!("refused {number} {first} {second}"),
    }
}

/// A packed answer to a question in words.
pub fn reply(packed: u64) -> String {
    match (packed & 0xff, packed >> 8) {
        (0, 0) => String::from("no"),
        (0, 1) => String::from("yes"),
        (0, other) => format!("{other}, neither yes nor no"),
        _ => answer(packed),
    }
}

/// A packed verdict on a listing in words.
pub fn verdict(packed: u64) -> String {
    match unpacked(packed) {
        (0, 1, 0) => String::from("same"),
        (0, 0, place) => format!("differs {place}"),
        (0, first, second) => format!("{first} and {second}, no verdict"),
        _ => answer(packed),
    }
}
