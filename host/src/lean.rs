//! The anchor of the bench: translation and rehearsal as plain Rust has them that nobody has to prove, on rows, in
//! arrays that are written in place. It shows how far the other two are from what the machine can do. There are no
//! terms here, and no machine: that equal terms have equal row numbers, that an image never changes once its row can be
//! built, and that no event of an accepted book fails, is taken from the rules and made use of.

mod read;
mod walk;

use crate::book::{Refusal, MOST_PARTIES, MOST_STEPS, STEP};
use crate::rehearse::MOST_MOVES;
use read::{Book, Facts};
use walk::Walk;

type Answer = Result<usize, Refusal>;

/// Calls a function with tables for as many rows as the book may need: a small book has small ones to clear.
macro_rules! fitting {
    ($function:ident, $book:expr, $($rest:expr),*) => {
        match $book.rows.len() {
            0..=32 => $function::<32>($book, $($rest),*),
            33..=256 => $function::<256>($book, $($rest),*),
            _ => $function::<1024>($book, $($rest),*),
        }
    };
}

/// What `translate::translate` answers, with the same words in `out`.
pub fn translate(words: &[u32], out: &mut [u32]) -> Answer {
    let book = Book::of(words)?;
    fitting!(translate_in, &book, out)
}

/// What `rehearse::rehearse` answers, with the same words in `out`.
pub fn rehearse(words: &[u32], schedule: &[u32], out: &mut [u32]) -> Answer {
    let book = Book::of(words)?;
    fitting!(rehearse_in, &book, schedule, out)
}

/// The words are copied once all is known: a refusal may come up to the last of them, and changes none that was lent.
fn translate_in<const N: usize>(book: &Book, out: &mut [u32]) -> Answer {
    let mut facts = Facts::<N>::new();
    facts.read(book)?;
    let parties = book.parties.len();
    let heads = 1 + 2 * parties;
    let mut walk = Walk::new(book, &facts, heads, Some(out.len()));
    let mut ends = [0; MOST_PARTIES as usize];
    all(&mut walk, &facts, |party, length| ends[party] = length)?;

    walk.words[0] = parties as u32;
    let mut start = heads;
    for (head, end) in walk.words[1..heads].as_chunks_mut().0.iter_mut().zip(ends) {
        *head = [start as u32, (end - start) as u32];
        start = end;
    }
    match out.get_mut(..start) {
        Some(lent) => lent.copy_from_slice(&walk.words),
        None => return Err(Refusal::new(12, &[start as u32])),
    }
    Ok(start)
}

/// All parties go through their steps, and after each it is told how many words there are; or where the walk stops. A
/// party that comes after one which stops is asked about the steps before alone, as the smallest step is the place.
fn all<const N: usize>(
    walk: &mut Walk<N>,
    facts: &Facts<N>,
    mut after: impl FnMut(usize, usize),
) -> Result<(), Refusal> {
    let mut stopped = None;
    let mut before = u64::MAX;
    for party in 0..walk.book.parties.len() {
        if let Err(stop) = walk.party(party, facts.own[party] & before) {
            stopped = Some(stop);
            before = (1 << stop.step) - 1;
        }
        after(party, walk.length());
    }
    match stopped {
        Some(stop) => Err(stop.into()),
        None => Ok(()),
    }
}

fn rehearse_in<const N: usize>(book: &Book, schedule: &[u32], out: &mut [u32]) -> Answer {
    let mut facts = Facts::<N>::new();
    facts.read(book)?;
    let parties = book.parties.len();
    let mut walk = Walk::new(book, &facts, 0, None);
    all(&mut walk, &facts, |_, _| ())?;
    test(schedule, parties as u32)?;
    let Some(lent) = out.get_mut(..parties) else {
        return Err(Refusal::new(12, &[parties as u32]));
    };
    lent.copy_from_slice(&play(&facts.own, book.steps, &walk.events, schedule)[..parties]);
    Ok(parties)
}

/// Refusal 11.
fn test(schedule: &[u32], parties: u32) -> Result<(), Refusal> {
    if schedule.len() > MOST_MOVES {
        return Err(Refusal::new(11, &[MOST_MOVES as u32]));
    }
    // Without a way out of the loop several moves are looked at together.
    if schedule.iter().fold(0, |most, party| most.max(*party)) < parties {
        return Ok(());
    }
    let bad = schedule.iter().take_while(|party| **party < parties).count();
    Err(Refusal::new(11, &[bad as u32]))
}

/// A party in play.
#[derive(Clone, Copy, Default)]
struct Player {
    /// Its steps to come.
    steps: u64,
    /// Events left of the step it is in, and the bit of that step if it is the sender.
    left: u32,
    sends: u64,
    done: u32,
}

/// The events that each party has done. None fails, so it is enough to count them: a step is sent with the last of its
/// sender's events, and its receiver waits before the first of its own.
fn play(
    own: &[u64; MOST_PARTIES as usize],
    steps: &[[u32; STEP]],
    events: &[[u32; 2]; MOST_STEPS as usize],
    schedule: &[u32],
) -> [u32; MOST_PARTIES as usize] {
    let mut players = own.map(|steps| Player {
        steps,
        ..Player::default()
    });
    let mut sent = 0_u64;
    let mut unfinished = own.iter().filter(|steps| **steps != 0).count();
    for &party in schedule {
        let player = &mut players[party as usize % MOST_PARTIES as usize];
        if player.left == 0 {
            if player.steps == 0 {
                continue;
            }
            let step = player.steps.trailing_zeros();
            let bit = 1 << step;
            if steps[step as usize][0] == party {
                (player.left, player.sends) = (events[step as usize][0], bit);
            } else if sent & bit != 0 {
                (player.left, player.sends) = (events[step as usize][1], 0);
            } else {
                continue;
            }
            player.steps &= !bit;
        }
        player.left -= 1;
        player.done += 1;
        if player.left == 0 {
            sent |= player.sends;
            unfinished -= usize::from(player.steps == 0);
            if unfinished == 0 {
                break;
            }
        }
    }
    players.map(|player| player.done)
}
