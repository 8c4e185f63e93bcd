//! The judge: verdicts that were worked out by hand; ours and every renaming of ours, over all books; and whatever else is
//! handed in against the definition itself, by trying all one-to-one renamings, or all pairs of numbers.

mod common;

use common::{atoms, book, parties, row, step, top, EXAMPLE_1, LISTING_1, SMALLEST};
use host::book::{read, Refusal};
use host::files;
use host::judge::{by, judge, Verdict};
use host::random::{self, Random};
use host::translate::{part, programs, Program};
use host::words::of_bytes;
use std::collections::{BTreeMap, BTreeSet, HashMap};
use Verdict::{Differs, Same};

/// Example 1's parts. A receives N as x0 in step 0, and sends the cipher of x0 and B.
const A: &[u32] = LISTING_1.split_at(5).1.split_at(20).0;
/// B receives the cipher as x0 in step 1, and opens it to x1 and x2.
const B: &[u32] = LISTING_1.split_at(25).1;

/// Where the placeholders stand.
const A_RECEIVE: usize = 2;
const A_SENT: usize = 12;
const A_END: usize = 18;
const B_RECEIVE: usize = 9;
const B_OPENED: usize = 12;
const B_OPEN: usize = 13;
const B_CHECKS: [usize; 2] = [18, 22];

/// A part with other words at some places.
fn with(part: &[u32], words: &[(usize, u32)]) -> Vec<u32> {
    let mut other = part.to_vec();
    for (at, word) in words {
        other[*at] = *word;
    }
    other
}

fn of_a(words: &[(usize, u32)]) -> Verdict {
    judge(&EXAMPLE_1, 0, &with(A, words)).expect("a verdict")
}

fn of_b(words: &[(usize, u32)]) -> Verdict {
    judge(&EXAMPLE_1, 1, &with(B, words)).expect("a verdict")
}

/// B's part with x0 as one number, and x1 and x2 as two in a row.
fn b_as(cipher: u32, first: u32) -> Verdict {
    let second = first.wrapping_add(1);
    let [check, other] = B_CHECKS;
    of_b(&[
        (B_RECEIVE, cipher),
        (B_OPENED, cipher),
        (B_OPEN, first),
        (check, first),
        (other, second),
    ])
}

#[test]
fn example_1() {
    assert_eq!((of_a(&[]), of_b(&[])), (Same, Same));
    for name in [1, 9, 0x1_0000, u32::MAX] {
        assert_eq!(of_a(&[(A_RECEIVE, name), (A_SENT, name), (A_END, name)]), Same);
        // One of the uses keeps our name, or all of them do.
        assert_eq!(of_a(&[(A_RECEIVE, name), (A_SENT, name)]), Differs(A_END));
        assert_eq!(of_a(&[(A_RECEIVE, name), (A_END, name)]), Differs(A_SENT));
        assert_eq!(of_a(&[(A_RECEIVE, name)]), Differs(A_SENT));
        assert_eq!(of_a(&[(A_SENT, name)]), Differs(A_SENT));
        assert_eq!(of_a(&[(A_END, name)]), Differs(A_END));
    }
    assert_eq!(b_as(5, 3), Same);
    assert_eq!(b_as(2, 0), Same);
    // x1 and x2 are one run: they can't change places, nor stand apart.
    let [check, other] = B_CHECKS;
    assert_eq!(of_b(&[(check, 2), (other, 1)]), Differs(check));
    assert_eq!(of_b(&[(other, 5)]), Differs(other));
    // Rows, steps, codes and counts keep their words; so do the parts of an image held as itself.
    for at in [0, 1, 3, 4, 13, 14, 15, 16, 17, 19] {
        assert_eq!(of_a(&[(at, A[at] + 1)]), Differs(at));
    }
    // Another count of theirs is another word: the run is judged with ours.
    assert_eq!(of_b(&[(B_OPEN + 1, 1)]), Differs(B_OPEN + 1));
    assert_eq!(of_b(&[(B_OPEN, u32::MAX - 1), (B_OPEN + 1, 3)]), Differs(B_OPEN + 1));
    assert_eq!(of_b(&[(B_OPEN, u32::MAX), (B_OPEN + 1, 1)]), Differs(B_OPEN));
}

/// "Never past the largest u32."
#[test]
fn a_run_at_the_largest_number() {
    assert_eq!(b_as(u32::MAX, 1), Same);
    assert_eq!(b_as(0, u32::MAX - 1), Same);
    assert_eq!(b_as(0, u32::MAX), Differs(B_OPEN));
    assert_eq!(b_as(5, u32::MAX), Differs(B_OPEN));
    assert_eq!(b_as(u32::MAX - 2, u32::MAX - 1), Same);
}

/// The place is the later run's first number, whether or not anything behind it uses the numbers.
#[test]
fn overlapping_runs() {
    for (cipher, first) in [(7, 7), (7, 6), (1, 0), (0, 0), (u32::MAX, u32::MAX - 1)] {
        assert_eq!(b_as(cipher, first), Differs(B_OPEN), "{cipher} {first}");
        let cut = with(B, &[(B_RECEIVE, cipher), (B_OPENED, cipher), (B_OPEN, first)]);
        for length in B_OPEN + 1..=B.len() {
            assert_eq!(judge(&EXAMPLE_1, 1, &cut[..length]), Ok(Differs(B_OPEN)));
        }
        assert_eq!(judge(&EXAMPLE_1, 1, &cut[..B_OPEN]), Ok(Differs(B_OPEN)));
        assert_eq!(judge(&EXAMPLE_1, 1, &cut[..B_OPENED]), Ok(Differs(B_OPENED)));
    }
    for (cipher, first) in [(7, 8), (7, 5), (2, 0), (0, 1)] {
        assert_eq!(b_as(cipher, first), Same, "{cipher} {first}");
    }
}

/// "Where n is 0 the first number must be ours": A sends B nothing, then a cipher without contents, then nothing. B's runs
/// are none from x0 on, x0, none from x1 on, none from x1 on.
#[test]
fn runs_of_none() {
    let rows = [atoms(3), vec![row(2, 0, &[2])]].concat();
    let known = parties(&[&[2], &[2]]);
    let book = book(rows, &known, &[step(0, 1, &[]), step(0, 1, &[3]), step(0, 1, &[])]);
    let ours = [3, 0, 0, 0, 3, 1, 0, 1, 5, 0, 1, 0, 0, 2, 3, 2, 1, 0, 6, 0];
    let (book, own) = (book.words(), programs(&book).expect("a book that can be played"));
    assert_eq!(part(&own[1]), ours);
    let judged = |words: &[(usize, u32)]| judge(&book, 1, &with(&ours, words)).expect("a verdict");
    assert_eq!(judged(&[]), Same);
    for at in [2, 10, 16] {
        for other in [5, u32::MAX, 1 - ours[at]] {
            assert_eq!(judged(&[(at, other)]), Differs(at));
        }
    }
    // The run of one is renamed, and those of none are not; nor do they take a number.
    assert_eq!(judged(&[(6, 9), (9, 9)]), Same);
    assert_eq!(judged(&[(6, 1), (9, 1)]), Same);
    assert_eq!(judged(&[(6, 9), (9, 9), (10, 10)]), Differs(10));
    assert_eq!(judged(&[(6, 9), (9, 9), (10, 0)]), Differs(10));
}

#[test]
fn lengths() {
    for (party, ours) in [(0, A), (1, B)] {
        for length in 0..ours.len() {
            assert_eq!(judge(&EXAMPLE_1, party, &ours[..length]), Ok(Differs(length)));
        }
        for more in [&[0][..], &[6, 0], ours] {
            let longer = [ours, more].concat();
            assert_eq!(judge(&EXAMPLE_1, party, &longer), Ok(Differs(ours.len())));
            // A word before comes first.
            assert_eq!(judge(&EXAMPLE_1, party, &with(&longer, &[(4, 9)])), Ok(Differs(4)));
        }
    }
    assert_eq!(judge(&SMALLEST, 0, &[6, 0]), Ok(Same));
    assert_eq!(judge(&SMALLEST, 0, &[]), Ok(Differs(0)));
    // The whole listing is no party's part.
    assert_eq!(judge(&EXAMPLE_1, 0, &LISTING_1), Ok(Differs(0)));
}

/// "A book that is refused gives the book's refusal, then a party number out of range is 22."
#[test]
fn refusals() {
    for party in [2, 3, 16, u32::MAX] {
        for listing in [A, B, &[]] {
            let refusal = Refusal::new(22, &[party]);
            assert_eq!(judge(&EXAMPLE_1, party, listing), Err(refusal));
        }
    }
    let mut met = BTreeSet::new();
    for (_, words) in books() {
        if let Err(refusal) = read(&words).and_then(|book| programs(&book)) {
            for party in [0, 2, u32::MAX] {
                assert_eq!(judge(&words, party, A), Err(refusal.clone()));
            }
            met.insert(refusal.number);
        }
    }
    let all = (1..=10).chain([13]).collect();
    assert_eq!(met, all);
}

/// The name and the words of each book in `books/` whose bytes are words.
fn books() -> impl Iterator<Item = (String, Vec<u32>)> {
    let files = files::ending(&top().join("books"), "book").expect("the books");
    files.into_iter().filter_map(|file| {
        let words = of_bytes(&files::bytes(&file).expect("the book")).ok()?;
        Some((file.file_stem()?.to_string_lossy().into_owned(), words))
    })
}

/// The programs of each that is accepted.
fn shelf() -> impl Iterator<Item = (String, Vec<Program>)> {
    books().filter_map(|(name, words)| Some((name, programs(&read(&words).ok()?).ok()?)))
}

/// What a word of a part is, read off the words by the tables of events and images.
#[derive(Clone, Copy, PartialEq, Debug)]
enum Role {
    Plain,
    Use,
    Run(u32),
}

use Role::{Plain, Run, Use};

fn roles(part: &[u32]) -> Vec<Role> {
    let mut roles = Vec::new();
    while roles.len() < part.len() {
        let at = roles.len();
        match part[at] {
            1 => roles.extend([Plain; 2]),
            2 => {
                roles.extend([Plain; 3]);
                (0..part[at + 2]).for_each(|_| image(part, &mut roles));
            }
            3 => roles.extend([Plain, Plain, Run(part[at + 3]), Plain]),
            4 => {
                roles.extend([Plain, Use]);
                image(part, &mut roles);
            }
            5 => {
                roles.extend([Plain, Use, Run(part[at + 3]), Plain]);
                image(part, &mut roles);
            }
            _ => {
                roles.extend([Plain; 2]);
                (0..part[at + 1]).for_each(|_| roles.extend([Plain, Use, Plain]));
            }
        }
    }
    roles
}

fn image(part: &[u32], roles: &mut Vec<Role>) {
    let at = roles.len();
    let (words, images) = match part[at] {
        0 => (&[Plain, Plain][..], 0),
        1 => (&[Plain, Use][..], 0),
        2 => (&[Plain; 3][..], part[at + 2]),
        3 => (&[Plain; 2][..], 1 + part[at + 1]),
        _ => (&[Plain][..], 1),
    };
    roles.extend(words);
    (0..images).for_each(|_| image(part, roles));
}

/// A part under other placeholders: each run begins where it is told, by its first number and its count.
fn renamed(part: &[u32], mut start: impl FnMut(u32, u32) -> u32) -> Vec<u32> {
    let mut names = HashMap::new();
    let mut word = |(word, role): (&u32, Role)| match role {
        Plain | Run(0) => *word,
        Use => names[word],
        Run(n) => {
            let first = start(*word, n);
            names.extend((0..n).map(|at| (word + at, first + at)));
            first
        }
    };
    part.iter().zip(roles(part)).map(&mut word).collect()
}

/// Each run, in their order: its first number and its count.
fn runs(part: &[u32]) -> Vec<(u32, u32)> {
    let all = part.iter().zip(roles(part));
    all.filter_map(|(first, role)| match role {
        Run(n) if n > 0 => Some((*first, n)),
        _ => None,
    })
    .collect()
}

/// One-to-one renamings of a part: shifted, shifted as far as there are numbers, reversed by run, sparse, and the runs in
/// any order with gaps.
fn renamings(part: &[u32], random: &mut Random) -> [Vec<u32>; 5] {
    let mut runs = runs(part);
    let count: u32 = runs.iter().map(|(_, n)| n).sum();
    for at in 1..runs.len() {
        runs.swap(at, random.below(at + 1));
    }
    let (mut starts, mut next) = (HashMap::new(), random.below(1_000) as u32);
    for (first, n) in runs {
        starts.insert(first, next);
        next += n + random.below(5_000) as u32;
    }
    [
        renamed(part, |first, _| first + 70_000),
        renamed(part, |first, _| first + (u32::MAX - count) + 1),
        renamed(part, |first, n| count - first - n),
        renamed(part, |first, _| 16 * first + 3),
        renamed(part, |first, _| starts[&first]),
    ]
}

/// "Ours is always accepted", and so is every renaming; for every party of every book.
#[test]
fn ours_and_its_renamings() {
    let mut random = Random::new(7);
    let (mut judged, mut renamings_met) = (0, 0);
    for (name, own) in shelf() {
        for (party, program) in (0..).zip(&own) {
            let ours = part(program);
            assert_eq!(by(&own, party, &ours), Ok(Same), "{name}, {party}");
            for (kind, theirs) in renamings(&ours, &mut random).iter().enumerate() {
                assert_eq!(by(&own, party, theirs), Ok(Same), "{name}, {party}, {kind}");
                renamings_met += usize::from(*theirs != ours);
            }
            judged += 1;
        }
    }
    assert!(judged > 200 && renamings_met > 1_000, "{judged}, {renamings_met}");
}

/// What the judge takes from our programs: placeholders are handed out from 0 on without gaps, none is used before it is
/// handed out, and each is used.
#[test]
fn placeholders_of_ours() {
    let random = random::well_formed(77, 1_500, 1).filter_map(|book| programs(&book).ok());
    let mut handed_out = 0;
    for program in shelf().map(|(_, own)| own).chain(random).flatten() {
        let ours = part(&program);
        let (mut next, mut used) = (0, BTreeSet::new());
        for (word, role) in ours.iter().zip(roles(&ours)) {
            match role {
                Plain => (),
                Use => {
                    assert!(*word < next, "{ours:?}");
                    used.insert(*word);
                }
                Run(n) => {
                    assert_eq!(*word, next, "{ours:?}");
                    next += n;
                }
            }
        }
        assert_eq!(used.len(), next as usize, "{ours:?}");
        handed_out += next;
    }
    assert!(handed_out > 240_000, "{handed_out}");
}

/// By the words: the first place at which no one-to-one renaming can agree, by trying each that could. A renaming gives
/// each of our placeholders one of the numbers; it agrees up to some place, and the best of them up to the place.
fn by_trying_all(ours: &[u32], theirs: &[u32]) -> Verdict {
    let count = runs(ours).iter().map(|(_, n)| n).sum::<u32>() as usize;
    // Whatever else a placeholder were called, it would occur nowhere in theirs.
    let numbers: BTreeSet<u32> = theirs
        .iter()
        .flat_map(|word| (0..=count as u32).filter_map(|more| word.checked_add(more)))
        .collect();
    let roles = roles(ours);
    let agreed = |names: &[u32]| agreed(names, ours, &roles, theirs);
    let best = best(&mut Vec::new(), count, &numbers, &agreed);
    match best == ours.len() && best == theirs.len() {
        true => Same,
        false => Differs(best),
    }
}

fn best(names: &mut Vec<u32>, count: usize, numbers: &BTreeSet<u32>, agreed: &impl Fn(&[u32]) -> usize) -> usize {
    if names.len() == count {
        return agreed(names);
    }
    let mut most = 0;
    for number in numbers {
        if !names.contains(number) {
            names.push(*number);
            most = most.max(best(names, count, numbers, agreed));
            names.pop();
        }
    }
    most
}

/// How many words agree if our placeholders are called so: a run has to be called by numbers in order.
fn agreed(names: &[u32], ours: &[u32], roles: &[Role], theirs: &[u32]) -> usize {
    let agrees = |((ours, role), theirs): ((&u32, &Role), &u32)| match *role {
        Plain | Run(0) => ours == theirs,
        Use => names[*ours as usize] == *theirs,
        Run(n) => (0..n).all(|at| theirs.checked_add(at) == Some(names[(ours + at) as usize])),
    };
    let words = ours.iter().zip(roles).zip(theirs);
    words.map(agrees).take_while(|agrees| *agrees).count()
}

/// By the words: a one-to-one renaming fits so many of them exactly if all plain words agree, and no two pairs of a
/// number of ours and one of theirs agree in the one and not in the other.
fn fits(ours: &[u32], roles: &[Role], theirs: &[u32], words: usize) -> bool {
    let mut pairs: Vec<(u64, u64)> = Vec::new();
    for at in 0..words {
        let (own, other) = (u64::from(ours[at]), u64::from(theirs[at]));
        match roles[at] {
            Plain | Run(0) if own != other => return false,
            Plain | Run(0) => (),
            Use => pairs.push((own, other)),
            Run(n) => pairs.extend((0..u64::from(n)).map(|more| (own + more, other + more))),
        }
    }
    let clash = |a: &(u64, u64), b: &(u64, u64)| (a.0 == b.0) != (a.1 == b.1);
    pairs
        .iter()
        .all(|a| a.1 <= u64::from(u32::MAX) && !pairs.iter().any(|b| clash(a, b)))
}

/// "The smallest word at which no renaming can agree, or the shorter length", as it stands there.
fn by_definition(ours: &[u32], theirs: &[u32]) -> Verdict {
    let (roles, common) = (roles(ours), ours.len().min(theirs.len()));
    let place = (0..common).find(|place| !fits(ours, &roles, theirs, place + 1));
    match place {
        Some(place) => Differs(place),
        None if ours.len() == theirs.len() => Same,
        None => Differs(common),
    }
}

/// What a word may become: its neighbours, the edges, and each other number that the listing has.
fn others(part: &[u32], at: usize) -> BTreeSet<u32> {
    let word = part[at];
    let near = [
        word.wrapping_add(1),
        word.wrapping_sub(1),
        word ^ 0x1_0000,
        0,
        u32::MAX,
        u32::MAX - 1,
    ];
    near.into_iter()
        .chain(part.iter().copied())
        .filter(|other| *other != word)
        .collect()
}

/// One word of a listing changed, at every place: each verdict has to be the one that is said, and is handed on with the
/// place of the change.
fn every_change(
    ours: &[u32],
    theirs: &[u32],
    program: &Program,
    right: impl Fn(&[u32]) -> Verdict,
) -> Vec<(usize, Verdict)> {
    let own = [program.clone()];
    let mut verdicts = Vec::new();
    for at in 0..theirs.len() {
        for other in others(theirs, at) {
            let changed = with(theirs, &[(at, other)]);
            let verdict = by(&own, 0, &changed).expect("a verdict");
            assert_eq!(verdict, right(&changed), "{ours:?} {changed:?}");
            verdicts.push((at, verdict));
        }
    }
    verdicts
}

/// How many of the changes show at their own place, and how many only later, as those of a run's first number do.
fn tally(verdicts: &[(usize, Verdict)]) -> (usize, usize) {
    let at_once = verdicts.iter().filter(|(at, verdict)| *verdict == Differs(*at));
    let later = verdicts
        .iter()
        .filter(|(at, verdict)| matches!(verdict, Differs(place) if place > at));
    (at_once.count(), later.count())
}

#[test]
fn a_word_changed_by_trying_all_renamings() {
    let own = programs(&read(&EXAMPLE_1).expect("a book")).expect("programs");
    let mut verdicts = Vec::new();
    for (ours, program) in [A, B].into_iter().zip(&own) {
        for theirs in [ours.to_vec(), renamed(ours, |first, _| 40 - 5 * first)] {
            let right = |theirs: &[u32]| {
                let right = by_trying_all(ours, theirs);
                assert_eq!(by_definition(ours, theirs), right, "{theirs:?}");
                right
            };
            assert_eq!(right(&theirs), Same);
            verdicts.extend(every_change(ours, &theirs, program, right));
        }
    }
    // Whatever is handed out is used, so no change is without a difference.
    let (at_once, later) = tally(&verdicts);
    assert_eq!(at_once + later, verdicts.len());
    assert!(at_once > 500 && later > 20, "{at_once}, {later}");
}

#[test]
fn a_word_changed_in_protocols() {
    let names = [
        "example-2",
        "example-3",
        "example-4",
        "needham-schroeder-lowe",
        "otway-rees",
    ];
    let mut random = Random::new(11);
    for (name, own) in shelf().filter(|(name, _)| names.contains(&&name[..])) {
        let mut verdicts = Vec::new();
        for program in &own {
            let ours = part(program);
            let [.., any_order] = renamings(&ours, &mut random);
            for theirs in [&ours, &any_order] {
                let right = |theirs: &[u32]| by_definition(&ours, theirs);
                verdicts.extend(every_change(&ours, theirs, program, right));
            }
        }
        let (at_once, later) = tally(&verdicts);
        assert_eq!(at_once + later, verdicts.len(), "{name}");
        assert!(at_once > 1_000 && later > 20, "{name}: {at_once}, {later}");
    }
}

/// Random listings for random books: every kind of them, and where a kind can be either, it is the same and differs.
#[test]
fn random_listings() {
    let mut met: BTreeMap<&str, [usize; 3]> = BTreeMap::new();
    for (number, book) in random::well_formed(75, 4_000, 1).enumerate() {
        let own = programs(&book);
        let mut random = random::at(76, number);
        let listing = random::listing(&mut random, own.as_deref().ok());
        let found = judge(&book.words(), listing.party, &listing.words);
        let right = own.and_then(|own| match own.get(listing.party as usize) {
            Some(program) => Ok(by_definition(&part(program), &listing.words)),
            None => Err(Refusal::new(22, &[listing.party])),
        });
        assert_eq!(found, right, "{book:?} {listing:?}");
        let which = match found {
            Ok(Same) => 0,
            Ok(Differs(_)) => 1,
            Err(_) => 2,
        };
        met.entry(listing.kind).or_default()[which] += 1;
    }
    for (kind, same, differs, refused) in [
        ("ours", true, false, false),
        ("shifted", true, false, false),
        ("reversed by run", true, false, false),
        ("sparse", true, false, false),
        ("runs in any order", true, false, false),
        ("overlapping runs", false, true, false),
        ("a run up to the largest number", true, true, false),
        ("a run past the largest number", false, true, false),
        ("a run of none renamed", false, true, false),
        ("another count of a run", false, true, false),
        ("a word changed", true, true, false),
        ("cut", false, true, false),
        ("lengthened", false, true, false),
        ("for no party", false, false, true),
        ("for a refused book", false, false, true),
    ] {
        let found = met.remove(kind).unwrap_or_default();
        assert_eq!(
            found.map(|count| count > 0),
            [same, differs, refused],
            "{kind}: {found:?}"
        );
    }
    assert!(met.is_empty(), "{met:?}");
}

/// The most placeholders that a book can have, 232,960: all of them are told apart, the last too.
#[test]
fn the_most_placeholders() {
    let (_, own) = shelf().find(|(name, _)| name == "full-placeholders").expect("the book");
    let program = own.iter().max_by_key(|program| program.len()).expect("a party");
    let own = [program.clone()];
    let ours = part(program);
    let count: u32 = runs(&ours).iter().map(|(_, n)| n).sum();
    assert_eq!(count, 232_960);
    let roles = roles(&ours);
    let place = |number: u32| {
        (0..ours.len())
            .rev()
            .find(|at| roles[*at] == Use && ours[*at] == number)
            .expect("a use")
    };
    for number in [65_535, 65_536, 131_071, 200_000, 232_959] {
        let at = place(number);
        for other in [
            number - 1,
            number - 65_535,
            number ^ 0x1_0000,
            number & 0xffff,
            count,
            u32::MAX,
        ] {
            let verdict = if other == number { Same } else { Differs(at) };
            assert_eq!(by(&own, 0, &with(&ours, &[(at, other)])), Ok(verdict));
        }
    }
    // The last run in the place of an early one.
    let all = runs(&ours);
    let ((early, _), (last, n)) = (all[99], all[all.len() - 1]);
    let overlapping = renamed(
        &ours,
        |first, _| if first == last { 16 * early + 3 } else { 16 * first + 3 },
    );
    let at = (0..ours.len())
        .find(|at| roles[*at] == Run(n) && ours[*at] == last)
        .expect("a run");
    assert_eq!(by(&own, 0, &overlapping), Ok(Differs(at)));
}
