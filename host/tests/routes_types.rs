//! The comparison of the routes of derivations itself: it passes what is right, and what is wrong in one point is told.

mod common;

use common::{top, Folder};
use host::book::Refusal;
use host::library::{packed_finding, packed_reply};
use host::routes::types::{over, Derivations, Typing};
use host::types::{keeps_apart, verdict, Verdict};
use host::{bytes, words};

/// The host in the place of the proved code, with one thing wrong on words or on bytes.
#[derive(Clone, Copy, PartialEq, Debug)]
enum Fake {
    Right,
    LastBadLine,
    AnotherIsSafe,
    NoCount,
    AllApart,
    RoomBeforeCount,
    CountWrites,
    RoomWordShort,
    RoomUnwritten,
    AskedInFront,
    BadIsAnother,
    OddLetPass,
    ApartTurned,
    ApartUnwritten,
}

impl Typing for Fake {
    fn check(&self, asked: &[u32], derivation: &[u32]) -> Verdict {
        match (self, verdict(asked, derivation)) {
            (Fake::LastBadLine, Verdict::Bad(_)) => Verdict::Bad(derivation[0] - 1),
            (Fake::AnotherIsSafe, Verdict::Another) => Verdict::Safe,
            (Fake::NoCount, Verdict::Refused(_)) => Verdict::Another,
            (_, right) => right,
        }
    }

    fn keeps_apart(&self, asked: &[u32]) -> bool {
        *self == Fake::AllApart || keeps_apart(asked)
    }

    fn check_bytes(&self, asked: &[u8], derivation: &[u8], room: &mut [u32]) -> u64 {
        let cut = |bytes: &'_ [u8]| bytes[..bytes.len() / 4 * 4].to_vec();
        let (asked, derivation) = match self {
            Fake::OddLetPass => (cut(asked), cut(derivation)),
            _ => (asked.to_vec(), derivation.to_vec()),
        };
        let needed = asked.len() / 4 + derivation.len() / 4;
        let before = room.to_vec();
        let right = bytes::check(&asked, &derivation, room);
        let wrong = match (self, &right) {
            (Fake::RoomBeforeCount, Ok(Verdict::Refused(_))) if room.len() < needed => {
                Err(Refusal::new(12, &[needed as u32]))
            }
            (Fake::CountWrites, Ok(Verdict::Refused(_))) => {
                room.iter_mut().take(1).for_each(|word| *word = !*word);
                right
            }
            (Fake::RoomWordShort, Err(refusal)) if refusal.number == 12 && room.len() + 1 == needed => {
                let mut enough = vec![0; needed];
                bytes::check(&asked, &derivation, &mut enough)
            }
            (Fake::RoomUnwritten, Ok(_)) => {
                room.copy_from_slice(&before);
                right
            }
            (Fake::AskedInFront, Ok(Verdict::Safe)) => {
                let asked = words::of_bytes(&asked).expect("whole words");
                room[..asked.len()].copy_from_slice(&asked);
                right
            }
            (Fake::BadIsAnother, Ok(Verdict::Bad(_))) => Ok(Verdict::Another),
            _ => right,
        };
        packed_finding(&wrong)
    }

    fn apart_bytes(&self, asked: &[u8], room: &mut [u32]) -> u64 {
        let before = room.to_vec();
        let right = bytes::keeps_apart(asked, room);
        match (self, &right) {
            (Fake::ApartTurned, Ok(apart)) => return packed_reply(&Ok(!apart)),
            (Fake::ApartUnwritten, Ok(_)) => room.copy_from_slice(&before),
            _ => {}
        }
        packed_reply(&right)
    }
}

fn told(fake: Fake, all: &Derivations, keep: &Folder) -> (bool, String) {
    let mut out = Vec::new();
    let same = over(&fake, all, keep.at(), &mut out).expect("it ends");
    (same, String::from_utf8(out).expect("text"))
}

#[test]
fn right_and_wrong_ones() {
    let keep = Folder::new("routes-types");
    let all = Derivations::new(&[top().join("processes")], 5, 100).expect("derivations");
    let (same, text) = told(Fake::Right, &all, &keep);
    assert!(same, "{text}");
    assert!(text.starts_with("seed 5, 100 random derivations, "), "{text}");
    assert!(text.ends_with(" calls on each route, 0 differences\n"), "{text}");
    for kind in [
        "safe: ",
        "another: ",
        "bad: ",
        "refused 1: ",
        "refused 12: ",
        "refused 24: ",
    ] {
        assert!(text.contains(kind), "{kind} in {text}");
    }
    let wrong = [
        Fake::LastBadLine,
        Fake::AnotherIsSafe,
        Fake::NoCount,
        Fake::AllApart,
        Fake::RoomBeforeCount,
        Fake::CountWrites,
        Fake::RoomWordShort,
        Fake::RoomUnwritten,
        Fake::AskedInFront,
        Fake::BadIsAnother,
        Fake::OddLetPass,
        Fake::ApartTurned,
        Fake::ApartUnwritten,
    ];
    for fake in wrong {
        let (same, text) = told(fake, &all, &keep);
        assert!(!same && !text.ends_with(" 0 differences\n"), "{fake:?}: {text}");
    }
}
