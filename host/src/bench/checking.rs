//! The check of derivations with about as many lines as there may be: of handshakes side by side, of bound names one
//! inside another, and of as many effects a line as there may be.

use super::judging::in_turn;
use super::tables::{grouped, microseconds, ratio};
use super::timing::{median, quartiles};
use super::Say;
use crate::bytes;
use crate::library::{packed_finding, Library};
use crate::random::derivation::lengthened;
use crate::types::tree::{Process, Term, Type};
use crate::types::{derive, text, Asked, Derived, Verdict};
use crate::words;
use std::hint::black_box;

const MOST_LINES: usize = 1_024;
const MOST_EFFECTS: usize = 64;

struct Case {
    name: &'static str,
    asked: Vec<u8>,
    derivation: Vec<u8>,
}

/// Times the library's check and the host's, which must say that each derivation is safe.
pub fn tables(library: &Library, say: Say) -> Result<(), String> {
    let mut text = String::from(
        "| check | lines | words | proved | host | proved, ns a line | host, ns a line | proved / host (quartiles) |\n\
         |---|---:|---:|---:|---:|---:|---:|---:|\n",
    );
    for case in [
        case("handshakes", largest(handshakes)),
        case("names", largest(names)),
        case("effects", largest(effects)),
        case("good environments", handshakes(1)),
    ] {
        text += &line(&case, library)?;
    }
    say(&text)
}

fn line(case: &Case, library: &Library) -> Result<String, String> {
    let Case {
        name,
        asked,
        derivation,
    } = case;
    let words = asked.len() / 4 + derivation.len() / 4;
    let room = std::cell::RefCell::new([vec![0; words], vec![0; words]]);
    let proved = || library.check_bytes(black_box(asked), black_box(derivation), &mut room.borrow_mut()[0]);
    let host = || bytes::check(black_box(asked), black_box(derivation), &mut room.borrow_mut()[1]);
    let (answer, own) = (proved(), host());
    let same = room.borrow()[0] == room.borrow()[1];
    if own != Ok(Verdict::Safe) || answer != packed_finding(&own) || !same {
        return Err(format!("{name}: the library answers {answer}, the host {own:?}"));
    }
    let timed: [&dyn Fn(); 2] = [
        &|| {
            black_box(proved());
        },
        &|| drop(black_box(host())),
    ];
    let [proved, host] = in_turn(timed);
    let ratios: Vec<f64> = proved.iter().zip(&host).map(|(proved, host)| proved / host).collect();
    let times = [median(&proved), median(&host)];
    let lines = MOST_LINES as f64;
    let [own, hosts] = times.map(|time| time / lines);
    Ok(format!(
        "| {name} | {} | {} | {} | {own:.0} | {hosts:.0} | {} |\n",
        grouped(lines),
        grouped(words as f64),
        times.map(microseconds).join(" | "),
        ratio(quartiles(&ratios)),
    ))
}

/// A derivation, with lines in front until there are as many as there may be.
fn case(name: &'static str, found: Derived) -> Case {
    Case {
        name,
        asked: words::to_bytes(&found.asked),
        derivation: words::to_bytes(&lengthened(&found.derivation, MOST_LINES)),
    }
}

/// The largest of its kind that has no more lines than there may be: each size has as many more as the one before.
fn largest(of: fn(usize) -> Derived) -> Derived {
    let [one, two] = [1, 2].map(|size| of(size).lines);
    of(1 + (MOST_LINES - one) / (two - one))
}

/// So many handshakes under one key, side by side.
fn handshakes(count: usize) -> Derived {
    const ONE: &str =
        "new (n : Un); out net n; inp net z : Un; decrypt z (k) to m : nonce [end a]; check n = m; end a; stop\n\
        | inp net x : Un; begin a; cast x is y : nonce [end a]; out net {y}k; stop\n";
    let all = vec![ONE; count].join("| ");
    let names = "name net : Un\nname a : Un\nname k : symkey(nonce [end a])\n";
    found(&text::parse(&format!("{names}{all}")).expect("a process"))
}

/// So many names, each bound inside the one before.
fn names(count: usize) -> Derived {
    let mut process = Process::Stop;
    for x in (0..count as u32).rev() {
        process = Process::New(x, Type::Un, Box::new(process));
    }
    found(&asked(process, vec![], count))
}

/// As many effects of one label as a line may have, and behind them one more and one fewer in turn.
fn effects(count: usize) -> Derived {
    let a = || Term::Name(0);
    let end = |process| Process::End(a(), Box::new(process));
    let begin = |process| Process::Begin(a(), Box::new(process));
    let mut process = Process::Stop;
    for _ in 0..MOST_EFFECTS {
        process = end(process);
    }
    for _ in 0..count {
        process = end(begin(process));
    }
    for _ in 0..MOST_EFFECTS {
        process = begin(process);
    }
    found(&asked(process, vec![(0, Type::Un)], 1))
}

fn asked(process: Process, environment: Vec<(u32, Type)>, names: usize) -> Asked {
    Asked {
        environment,
        process,
        names: (0..names).map(|name| format!("n{name}")).collect(),
    }
}

fn found(asked: &Asked) -> Derived {
    derive(asked).expect("no rule fails")
}
