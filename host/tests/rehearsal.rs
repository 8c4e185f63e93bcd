//! The rehearsal under schedules whose outcome was worked out by hand.

mod common;

use common::{atoms, book, parties, step, EXAMPLE_1, SMALLEST};
use host::random;
use host::rehearse::{print, rehearse};
use host::translate::{self, Event};
use host::words;

/// Events done in example 1, where A receives and sends, and B makes, sends, receives, opens and compares twice.
fn done(schedule: &[u32]) -> [u32; 2] {
    let mut out = [77; 3];
    assert_eq!(rehearse(&EXAMPLE_1, schedule, &mut out), Ok(2));
    assert_eq!(out[2], 77);
    [out[0], out[1]]
}

#[test]
fn example_1() {
    assert_eq!(done(&[]), [0, 0]);
    // A waits for a step not yet sent.
    assert_eq!(done(&[0, 0, 0]), [0, 0]);
    assert_eq!(done(&[1]), [0, 1]);
    assert_eq!(done(&[1, 0]), [0, 1]);
    assert_eq!(done(&[1, 1, 0]), [1, 2]);
    // B waits until A has sent.
    assert_eq!(done(&[1, 1, 1, 1, 0]), [1, 2]);
    assert_eq!(done(&[1, 1, 0, 1, 0, 1]), [2, 3]);
    assert_eq!(done(&[1, 1, 0, 0, 1, 1]), [2, 4]);
    assert_eq!(done(&[1, 1, 0, 0, 1, 1, 1]), [2, 5]);
    // At END nothing is done.
    assert_eq!(done(&[0, 1].repeat(100)), [2, 6]);
}

#[test]
fn on_bytes() {
    let book = words::to_bytes(&EXAMPLE_1);
    assert_eq!(print(&book, &words::to_bytes(&[1, 1, 0])), "1 2");
    assert_eq!(print(&book, &[]), "0 0");
    assert_eq!(print(&book, &words::to_bytes(&[1, 2])), "refused 11 1");
    assert_eq!(print(&book, &[0; 7]), "refused 1 0");
    assert_eq!(print(&book[..50], &[0; 4]), "refused 1 0");
    assert_eq!(print(&book[..52], &[0; 7]), "refused 1 0");
    assert_eq!(print(&book, &vec![0; 4 * 4_097]), "refused 11 4096");
    // One word more than the longest schedule is read, and no further.
    assert_eq!(print(&book, &vec![0; 4 * 4_097 + 1]), "refused 11 4096");
}

/// One party alone has nothing to do.
#[test]
fn no_step() {
    let mut out = [77];
    assert_eq!(rehearse(&SMALLEST, &[0; 4_096], &mut out), Ok(1));
    assert_eq!(out, [0]);
}

/// Steps out of the narration's order: C may take step 2 before B has taken step 0, as a step's
/// messages wait for their receiver.
#[test]
fn messages_wait() {
    let steps = [(0, 1), (0, 1), (0, 2), (2, 1)].map(|(sender, receiver)| step(sender, receiver, &[sender]));
    let book = book(atoms(3), &parties(&[&[0], &[1], &[2]]), &steps);
    let done = |schedule: &[u32]| {
        let mut out = [77; 3];
        assert_eq!(rehearse(&book.words(), schedule, &mut out), Ok(3));
        out
    };
    assert_eq!(done(&[0, 0, 0, 2, 2]), [3, 0, 2]);
    // B: receive (stored), receive, compare, receive (stored).
    assert_eq!(done(&[0, 0, 0, 2, 2, 1, 1, 1, 1, 1]), [3, 4, 2]);
    // Step 3 isn't sent before C has taken step 2.
    assert_eq!(done(&[0, 0, 2, 2, 1, 1, 1, 1]), [2, 3, 0]);
}

/// Under a fair schedule that is long enough every party does all its events.
#[test]
fn random_books_to_their_end() {
    let mut played = 0;
    for book in random::well_formed(11, 600, 1) {
        let Ok(programs) = translate::programs(&book) else {
            continue;
        };
        let counts: Vec<u32> = programs.iter().map(|own| own.len() as u32 - 1).collect();
        let ends = programs.iter().map(|own| own.last());
        assert!(ends.into_iter().all(|last| matches!(last, Some(Event::End { .. }))));
        let parties = book.parties.len() as u32;
        let rounds = counts.iter().sum::<u32>();
        let mut schedule = (0..parties).collect::<Vec<u32>>().repeat(rounds as usize);
        schedule.truncate(4_096);
        if rounds * parties > 4_096 {
            continue;
        }
        let mut out = vec![77; 16];
        let answer = rehearse(&book.words(), &schedule, &mut out);
        assert_eq!(answer, Ok(parties as usize));
        assert_eq!(out[..parties as usize], counts);
        assert!(out[parties as usize..].iter().all(|word| *word == 77));
        played += 1;
    }
    assert!(played > 100, "only {played} were played");
}
