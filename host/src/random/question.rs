//! Random questions about summaries: right ones, damaged ones and made-up ones, with numbers in range, most of them where
//! the answer turns, and out of it.

use super::Random;

/// A summary's words, and the numbers of a party, a row and a step.
#[derive(Clone, PartialEq, Eq, Debug)]
pub struct Question {
    pub summary: Vec<u32>,
    pub numbers: [u32; 3],
}

/// Words that a number or a word of a summary may have, and mostly shouldn't.
const EDGES: [u32; 8] = [0, 1, 16, 64, 65, 1_024, u32::MAX - 1, u32::MAX];

/// A question about this summary, or about one that no book gives; either may be damaged.
pub fn question(random: &mut Random, summary: Option<&[u32]>) -> Question {
    let mut summary = match summary {
        Some(summary) if random.percent(90) => summary.to_vec(),
        _ => made_up(random),
    };
    let mut numbers = numbers(random, &summary);
    if random.percent(20) {
        let (at, edge) = (random.below(3), *random.pick(&EDGES));
        let count = summary[at];
        numbers[at] = *random.pick(&[count, count.saturating_add(1), edge]);
    }
    if random.percent(25) {
        damage(random, &mut summary);
    }
    Question { summary, numbers }
}

/// A summary of the right length for its counts, few of which may be 0, with any steps and any words.
fn made_up(random: &mut Random) -> Vec<u32> {
    let (parties, rows) = (random.below(5), random.below(12));
    let steps = *random.pick(&EDGES);
    let mut summary = vec![parties as u32, rows as u32, steps];
    for _ in 0..parties * rows {
        let edge = *random.pick(&EDGES);
        summary.push(*random.pick(&[0, 1, 2, steps, steps.saturating_add(1), edge]));
    }
    summary
}

/// Numbers in range, where there are any: half of the steps are the one from which on the answer is yes, or the one
/// before it.
fn numbers(random: &mut Random, summary: &[u32]) -> [u32; 3] {
    let mut below = |count: u32| random.below(count.max(1) as usize) as u32;
    let (party, row) = (below(summary[0]), below(summary[1]));
    let any = below(summary[2]);
    let at = 3 + party as usize * summary[1] as usize + row as usize;
    let turn = summary.get(at).map_or(0, |word| word.saturating_sub(1));
    let step = match random.below(4) {
        0 => turn,
        1 => turn.saturating_sub(1),
        _ => any,
    };
    [party, row, step.min(summary[2].saturating_sub(1))]
}

/// Another length, another count, the two counts for one another, or another word.
fn damage(random: &mut Random, summary: &mut Vec<u32>) {
    match random.below(10) {
        0 => summary.truncate(random.below(4)),
        1 => summary.truncate(summary.len() - 1),
        2 | 3 => summary.push(random.word() as u32),
        4 => summary.swap(0, 1),
        5 | 6 => summary[random.below(2)] = *random.pick(&EDGES),
        7 => (summary[0], summary[1]) = (u32::MAX, u32::MAX),
        8 => summary[2] = *random.pick(&EDGES),
        _ => {
            let at = random.below(summary.len());
            summary[at] = random.word() as u32;
        }
    }
}
