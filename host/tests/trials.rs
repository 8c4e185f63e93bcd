//! Document 01's "Trials at the edges", marked P or not, document 02's order of receiving, its parties that make
//! nothing, and the steps of its END. Every expected word was worked out by hand. Examples 2 to 4 are in tests/examples.rs.

mod common;

use common::{atom, atoms, book, making_nothing, party, row, step, EXAMPLE_1, LISTING_1, SMALLEST};
use host::book::{read, Book, Layout, Party, Refusal, Row, Step, Terms, LONGEST, MARK, READ};
use host::translate::{print, translate};
use host::words::{self, to_bytes};

/// What stands in a lent buffer beforehand.
const OLD: u32 = 0xfeed;

/// Translates into a long buffer; the words past the listing must be the old ones, and a refusal
/// must leave all of them.
fn listing(words: &[u32]) -> Result<Vec<u32>, Refusal> {
    let mut out = vec![OLD; 30_000];
    let answer = translate(words, &mut out);
    let length = *answer.as_ref().unwrap_or(&0);
    assert!(out[length..].iter().all(|word| *word == OLD));
    out.truncate(length);
    answer.map(|_| out)
}

/// A listing from the parties' own listings: Q, then offset and count of each, then all of them.
fn joined(parties: &[&[u32]]) -> Vec<u32> {
    let mut words = vec![parties.len() as u32];
    let mut offset = 1 + 2 * parties.len() as u32;
    for own in parties {
        words.extend([offset, own.len() as u32]);
        offset += own.len() as u32;
    }
    words.extend(parties.concat());
    words
}

#[test]
fn one_row_one_party_no_step() {
    assert_eq!(listing(&SMALLEST), Ok(vec![1, 3, 2, 6, 0]));
    assert_eq!(print(&to_bytes(&SMALLEST)), "1 3 2 6 0");

    let mut short = [7, 8, 9, 10];
    assert_eq!(translate(&SMALLEST, &mut short), Err(Refusal::new(12, &[5])));
    assert_eq!(short, [7, 8, 9, 10]);
    let mut none = [];
    assert_eq!(translate(&SMALLEST, &mut none), Err(Refusal::new(12, &[5])));
    let mut exact = [OLD; 5];
    assert_eq!(translate(&SMALLEST, &mut exact), Ok(5));
    assert_eq!(exact, [1, 3, 2, 6, 0]);
}

#[test]
fn example_1() {
    assert_eq!(listing(&EXAMPLE_1), Ok(LISTING_1.to_vec()));
    let built = book(
        [atoms(4), vec![row(2, 0, &[2, 3, 1])]].concat(),
        &[party(0, &[0, 1, 2]), party(1, &[0, 1, 2])],
        &[step(1, 0, &[3]), step(0, 1, &[4])],
    );
    assert_eq!(built.words(), EXAMPLE_1);
    assert_eq!(read(&EXAMPLE_1), Ok(built));
    assert_eq!(print(&to_bytes(&EXAMPLE_1)), words::line(&LISTING_1));
}

#[test]
fn a_taken_atom_would_have_to_be_made() {
    // Rows A, B, K, N, {N}K; B lacks K.
    let book = book(
        [atoms(4), vec![row(2, 0, &[2, 3])]].concat(),
        &[party(0, &[0, 1, 2]), party(1, &[0, 1])],
        &[step(0, 1, &[4]), step(1, 0, &[3])],
    );
    assert_eq!(listing(&book.words()), Err(Refusal::new(10, &[1, 3])));
    assert_eq!(print(&to_bytes(&book.words())), "refused 10 1 3");
}

#[test]
fn the_public_half_of_a_free_key() {
    // Rows A, B, K, K+.
    let book = book(
        [atoms(3), vec![row(3, 0, &[2])]].concat(),
        &[party(0, &[0, 1]), party(1, &[0, 1])],
        &[step(0, 1, &[3])],
    );
    let a = [1, 2, 2, 0, 1, 4, 0, 2, 6, 0];
    let b = [3, 0, 0, 1, 6, 1, 3, 0, 0];
    assert_eq!(listing(&book.words()), Ok(joined(&[&a, &b])));
}

#[test]
fn opened_with_a_partner_that_is_no_row() {
    // Rows A, B, K, N, K+, {N}K+; A holds K, and there is no row for K-.
    let book = book(
        [atoms(4), vec![row(3, 0, &[2]), row(2, 0, &[4, 3])]].concat(),
        &[party(0, &[0, 2]), party(1, &[1, 4])],
        &[step(1, 0, &[5])],
    );
    let a = [3, 0, 0, 1, 5, 0, 1, 1, 5, 0, 2, 6, 1, 3, 1, 0];
    let b = [1, 3, 2, 0, 1, 3, 1, 0, 4, 0, 3, 6, 0];
    assert_eq!(listing(&book.words()), Ok(joined(&[&a, &b])));
}

#[test]
fn signed_with_a_private_half_and_opened_with_the_public_one() {
    // Rows A, B, K, N, K-, {N}K-, K+. B holds K+ as itself, so the row is the image; A holds K.
    let book = book(
        [atoms(4), vec![row(4, 0, &[2]), row(2, 0, &[4, 3]), row(3, 0, &[2])]].concat(),
        &[party(0, &[2]), party(1, &[6])],
        &[step(0, 1, &[5])],
    );
    let a = [1, 3, 2, 0, 1, 3, 1, 5, 0, 2, 0, 3, 6, 0];
    let b = [3, 0, 0, 1, 5, 0, 1, 1, 0, 6, 6, 1, 3, 1, 0];
    assert_eq!(listing(&book.words()), Ok(joined(&[&a, &b])));
}

#[test]
fn the_operation_over_an_unknown_atom() {
    // Rows A, B, N, f(N) with tag 7.
    let rows = [atoms(3), vec![row(1, 7, &[2])]].concat();
    let parties = [party(0, &[0, 1]), party(1, &[0, 1])];
    let sent_on = book(rows.clone(), &parties, &[step(0, 1, &[3]), step(1, 0, &[3])]);
    let a = [1, 2, 2, 0, 1, 2, 7, 1, 0, 2, 3, 1, 0, 1, 4, 0, 2, 7, 1, 0, 2, 6, 0];
    let b = [3, 0, 0, 1, 2, 1, 1, 1, 0, 6, 1, 3, 0, 0];
    assert_eq!(listing(&sent_on.words()), Ok(joined(&[&a, &b])));

    let itself = book(rows, &parties, &[step(0, 1, &[3]), step(1, 0, &[2])]);
    assert_eq!(listing(&itself.words()), Err(Refusal::new(10, &[1, 2])));
}

#[test]
fn a_step_with_no_messages() {
    let parties = [party(0, &[]), party(1, &[])];
    let silent = book(atoms(2), &parties, &[step(0, 1, &[])]);
    let a = [2, 0, 0, 6, 0];
    let b = [3, 0, 0, 0, 6, 0];
    assert_eq!(listing(&silent.words()), Ok(joined(&[&a, &b])));
}

#[test]
fn the_sender_is_the_receiver() {
    let parties = [party(0, &[]), party(1, &[])];
    let own = book(atoms(2), &parties, &[step(0, 0, &[])]);
    assert_eq!(listing(&own.words()), Err(Refusal::new(8, &[0])));
}

/// Row 0 an atom and each later row the public half of the one before, up to row `last`.
fn halves(last: u32) -> Vec<Row> {
    let later = (1..=last).map(|number| row(3, 0, &[number - 1]));
    atoms(1).into_iter().chain(later).collect()
}

#[test]
fn a_chain_of_halves() {
    let parties = [party(0, &[])];
    let passes = book(halves(1_022), &parties, &[]);
    assert_eq!(passes.term(1_022).size(), 1_024);
    assert_eq!(listing(&passes.words()), Ok(vec![1, 3, 2, 6, 0]));
    let refused = book(halves(1_023), &parties, &[]);
    assert_eq!(listing(&refused.words()), Err(Refusal::new(5, &[1_023])));
}

#[test]
fn the_deepest_halves_are_sent_and_compared() {
    // Party 0 has row 1,023 for its name and nothing else; party 1 holds row 0.
    let book = book(
        [halves(1_022), atoms(1)].concat(),
        &[party(1_023, &[1_023]), party(0, &[0])],
        &[step(1, 0, &[1_022, 0]), step(1, 0, &[1_022, 1_021])],
    );
    let image = |depth: usize, last: [u32; 2]| [vec![4; depth], last.to_vec()].concat();
    // Party 0 stores both, then compares row 1,022 with its placeholder and builds row 1,021.
    let own = [
        vec![3, 0, 0, 2, 3, 1, 2, 2, 4, 2, 1, 0, 4, 3],
        image(1_021, [1, 1]),
        vec![6, 2, 1_022, 0, 0, 0, 1, 0],
    ];
    let other = [
        vec![2, 0, 2],
        image(1_022, [0, 0]),
        vec![0, 0, 2, 1, 2],
        image(1_022, [0, 0]),
        image(1_021, [0, 0]),
        vec![6, 0],
    ];
    let expected = joined(&[&own.concat(), &other.concat()]);
    assert_eq!(listing(&book.words()), Ok(expected));
}

#[test]
fn the_deepest_ciphers_are_opened() {
    // Rows A, B, K, N, then {N}K and on, each cipher in the next: 255 deep.
    let mut rows = atoms(4);
    for number in 4..259 {
        rows.push(row(2, 0, &[2, number - 1]));
    }
    let deepest = 258;
    let book = book(rows, &[party(0, &[2]), party(1, &[2])], &[step(0, 1, &[deepest])]);
    assert_eq!(book.term(deepest).size(), 1_022);
    let mut a = vec![1, 3, 2, 0, 1];
    a.extend([3, 1, 0, 2].repeat(255));
    a.extend([0, 3, 6, 0]);
    let mut b = vec![3, 0, 0, 1];
    for placeholder in 0..255 {
        b.extend([5, placeholder, placeholder + 1, 1, 0, 2]);
    }
    b.extend([6, 1, 3, 255, 0]);
    assert_eq!(listing(&book.words()), Ok(joined(&[&a, &b])));
}

#[test]
fn a_stored_cipher_is_not_opened_later() {
    // Rows A, B, K, N, {N}K. B gets the cipher and then its key, and stores both: placeholders 0 and 1. Received once
    // more the cipher is opened with the placeholder of its key, and its entry stays what it was.
    let book = book(
        [atoms(4), vec![row(2, 0, &[2, 3])]].concat(),
        &[party(0, &[2]), party(1, &[])],
        &[step(0, 1, &[4, 2]), step(0, 1, &[4]), step(1, 0, &[4])],
    );
    let a = [
        &[1, 3][..],                        // new N
        &[2, 0, 2, 3, 1, 0, 2, 0, 3, 0, 2], // {N}K, K
        &[2, 1, 1, 3, 1, 0, 2, 0, 3],       // {N}K
        &[3, 2, 0, 1, 5, 0, 1, 1, 0, 2],    // x0, opened with K
        &[4, 1, 0, 3, 6, 0],                // x1 = N
    ];
    let b = [
        &[3, 0, 0, 2][..],                  // x0 and x1, both stored
        &[3, 1, 2, 1, 5, 2, 3, 1, 1, 1],    // x2, opened with x1; x3 is stored
        &[2, 2, 1, 1, 0],                   // x0
        &[6, 3, 4, 0, 0, 2, 1, 0, 3, 3, 1], // {N}K is x0 and K x1, of step 0; N is x3, of step 1
    ];
    assert_eq!(listing(&book.words()), Ok(joined(&[&a.concat(), &b.concat()])));
}

/// "A cipher whose key's partner is buildable is opened first": also one that the receiver could build.
#[test]
fn opened_though_buildable() {
    // Rows A, B, K, M, {M}K, and {{M}K}K; both know K and M.
    let book = book(
        [atoms(4), vec![row(2, 0, &[2, 3]), row(2, 0, &[2, 4])]].concat(),
        &[party(0, &[2, 3]), party(1, &[2, 3])],
        &[step(0, 1, &[5, 3])],
    );
    let a = [2, 0, 2, 3, 1, 0, 2, 3, 1, 0, 2, 0, 3, 0, 3, 6, 0];
    let b = [
        &[3, 0, 0, 2][..],   // x0, x1
        &[5, 0, 2, 1, 0, 2], // x0 holds x2
        &[5, 2, 3, 1, 0, 2], // x2 holds x3
        &[4, 3, 0, 3],       // x3 = M
        &[4, 1, 0, 3, 6, 0], // x1 = M
    ];
    assert_eq!(listing(&book.words()), Ok(joined(&[&a, &b.concat()])));

    // And one that the receiver knows from the start as itself.
    let mut known = book;
    known.parties[1].known = vec![2, 3, 5];
    assert_eq!(listing(&known.words()), Ok(joined(&[&a, &b.concat()])));
}

/// A cipher without contents is opened into no placeholders; the next one is named all the same.
#[test]
fn opened_without_contents() {
    // Rows A, B, K, {}K, N.
    let book = book(
        [atoms(3), vec![row(2, 0, &[2]), atom()]].concat(),
        &[party(0, &[2]), party(1, &[2])],
        &[step(0, 1, &[3]), step(0, 1, &[4])],
    );
    let a = [2, 0, 1, 3, 0, 0, 2, 1, 4, 2, 1, 1, 0, 4, 6, 0];
    let b = [3, 0, 0, 1, 5, 0, 1, 0, 0, 2, 3, 1, 1, 1, 6, 1, 4, 1, 1];
    assert_eq!(listing(&book.words()), Ok(joined(&[&a, &b])));
}

/// "Then a buildable row is compared": a cipher too, if it can't be opened.
#[test]
fn a_cipher_that_cannot_be_opened_is_compared() {
    // Rows A, B, K, N, K+, {N}K+. B knows K+ and N, and lacks K-.
    let rows = [atoms(4), vec![row(3, 0, &[2]), row(2, 0, &[4, 3])]].concat();
    let one = step(0, 1, &[5]);
    let compared = book(
        rows.clone(),
        &[party(0, &[3, 4]), party(1, &[3, 4])],
        std::slice::from_ref(&one),
    );
    let a = [2, 0, 1, 3, 1, 0, 4, 0, 3, 6, 0];
    let b = [3, 0, 0, 1, 4, 0, 3, 1, 0, 4, 0, 3, 6, 0];
    assert_eq!(listing(&compared.words()), Ok(joined(&[&a, &b])));

    // With K in place of K+ B has both halves, and opens it with the private one.
    let opened = book(rows.clone(), &[party(0, &[3, 4]), party(1, &[2, 3])], &[one]);
    let b = [3, 0, 0, 1, 5, 0, 1, 1, 5, 0, 2, 4, 1, 0, 3, 6, 0];
    assert_eq!(listing(&opened.words()), Ok(joined(&[&a, &b])));

    // Stored, and received again without its key: compared with the first placeholder.
    let stored = book(rows, &[party(0, &[3, 4]), party(1, &[])], &[step(0, 1, &[5, 5])]);
    let a = [2, 0, 2, 3, 1, 0, 4, 0, 3, 3, 1, 0, 4, 0, 3, 6, 0];
    let b = [3, 0, 0, 2, 4, 1, 1, 0, 6, 1, 5, 0, 0];
    assert_eq!(listing(&stored.words()), Ok(joined(&[&a, &b])));
}

/// "A cipher stored earlier and received again with its key now teaches its contents": B can send N.
#[test]
fn a_cipher_received_again_teaches_its_contents() {
    // Rows A, B, K, N, {N}K.
    let steps = |again: &[Step]| {
        let last = step(1, 0, &[3]);
        [&[step(0, 1, &[4]), step(0, 1, &[2])], again, &[last]].concat()
    };
    let rows = [atoms(4), vec![row(2, 0, &[2, 3])]].concat();
    let parties = [party(0, &[]), party(1, &[])];
    let taught = book(rows.clone(), &parties, &steps(&[step(0, 1, &[4])]));
    let a = [
        &[1, 2, 1, 3][..],            // new K, new N
        &[2, 0, 1, 3, 1, 0, 2, 0, 3], // {N}K
        &[2, 1, 1, 0, 2],             // K
        &[2, 2, 1, 3, 1, 0, 2, 0, 3], // {N}K
        &[3, 3, 0, 1, 4, 0, 0, 3],    // x0 = N
        &[6, 0],
    ];
    let b = [
        &[3, 0, 0, 1][..],                  // x0, stored
        &[3, 1, 1, 1],                      // x1, stored
        &[3, 2, 2, 1, 5, 2, 3, 1, 1, 1],    // x2, opened with x1; x3 is stored
        &[2, 3, 1, 1, 3],                   // x3
        &[6, 3, 4, 0, 0, 2, 1, 1, 3, 3, 2], // {N}K is x0, of step 0, K is x1, of step 1, N is x3, of step 2
    ];
    assert_eq!(listing(&taught.words()), Ok(joined(&[&a.concat(), &b.concat()])));

    // Not received again, the cipher stays closed.
    let late = book(rows, &parties, &steps(&[]));
    assert_eq!(listing(&late.words()), Err(Refusal::new(10, &[2, 3])));
}

/// The other way round: what is opened is not kept whole. A learns K- from a cipher received again, opens {N}K+ with it,
/// and can't send {N}K+ on, as it would have to make K.
#[test]
fn a_cipher_received_again_teaches_too_much() {
    // Rows A, B, L, K, K-, {K-}L, N, K+, {N}K+.
    let rows = vec![
        row(4, 0, &[3]),
        row(2, 0, &[2, 4]),
        atom(),
        row(3, 0, &[3]),
        row(2, 0, &[7, 6]),
    ];
    let rows = [atoms(4), rows].concat();
    let steps = [5, 2, 5, 8].map(|message| step(1, 0, &[message]));
    let parties = [party(0, &[0]), party(1, &[])];
    let last = step(0, 1, &[8]);
    let taught = book(
        rows.clone(),
        &parties,
        &[&steps[..], std::slice::from_ref(&last)].concat(),
    );
    assert_eq!(listing(&taught.words()), Err(Refusal::new(10, &[4, 3])));

    // Not received again, {K-}L stays closed; {N}K+ is stored as placeholder 2 and sent on.
    let closed = [&steps[..2], &[steps[3].clone(), last]].concat();
    let closed = book(rows, &parties, &closed);
    let a = [
        3, 0, 0, 1, 3, 1, 1, 1, 3, 2, 2, 1, 2, 3, 1, 1, 2, 6, 3, 5, 0, 0, 2, 1, 1, 8, 2, 2,
    ];
    let own = listing(&closed.words()).expect("A only hands on");
    assert_eq!(own[5..5 + a.len()], a);
    assert_eq!(own[1..3], [5, a.len() as u32]);
}

#[test]
fn contents_are_numbered_before_they_are_received() {
    // Rows A, B, K, N, M, {M}K, {{M}K, N}K, and a message after it: placeholders 0 and 1 are the
    // messages, 2 and 3 the outer contents, 4 the inner one.
    let book = book(
        [atoms(5), vec![row(2, 0, &[2, 4]), row(2, 0, &[2, 5, 3])]].concat(),
        &[party(0, &[2]), party(1, &[2])],
        &[step(0, 1, &[6, 3])],
    );
    let b = [
        3, 0, 0, 2, 5, 0, 2, 2, 0, 2, 5, 2, 4, 1, 0, 2, 4, 1, 1, 3, 6, 2, 4, 4, 0, 3, 3, 0,
    ];
    let a = [1, 4, 1, 3, 2, 0, 2, 3, 2, 0, 2, 3, 1, 0, 2, 0, 4, 0, 3, 0, 3, 6, 0];
    assert_eq!(listing(&book.words()), Ok(joined(&[&a, &b])));
}

/// Rows R, T, K, N, {N, T}K, f(N). R makes N; T sends it back under K and in an operation, and need make nothing.
#[test]
fn a_sender_that_makes_nothing() {
    let rows = [atoms(4), vec![row(2, 0, &[2, 3, 1]), row(1, 7, &[3])]].concat();
    let steps = [step(0, 1, &[3]), step(1, 0, &[4, 5])];
    let plain = book(rows, &[party(0, &[1, 2]), party(1, &[1, 2])], &steps);
    let r = [
        &[1, 3, 2, 0, 1, 0, 3][..],      // new N; N
        &[3, 1, 0, 2, 5, 0, 2, 2, 0, 2], // x0 holds x2, x3
        &[4, 2, 0, 3, 4, 3, 0, 1],       // x2 = N, x3 = T
        &[4, 1, 2, 7, 1, 0, 3, 6, 0],    // x1 = f(N)
    ];
    let t = [
        &[3, 0, 0, 1][..],                                 // x0, stored
        &[2, 1, 2, 3, 2, 0, 2, 1, 0, 0, 1, 2, 7, 1, 1, 0], // {x0, T}K, f(x0)
        &[6, 1, 3, 0, 0],                                  // N is x0, of step 0
    ];
    let programs = joined(&[&r.concat(), &t.concat()]);
    assert_eq!(listing(&plain.words()), Ok(programs.clone()));
    // "1 may make, 0 may not": the fourth word of a party, and nothing else in the listing.
    let marked = making_nothing(plain.clone(), &[1]).words();
    let mut words = plain.words();
    words[8 + 4 * 6 + 4 + 3] = 0;
    assert_eq!(words, marked);
    assert_eq!(listing(&marked), Ok(programs));
    // Marked, R can't begin.
    assert_eq!(
        listing(&making_nothing(plain, &[0]).words()),
        Err(Refusal::new(13, &[0, 3]))
    );
}

/// "The walk stops at the first atom that can't be made, with 10 if it is taken and else 13."
#[test]
fn the_first_atom_that_cannot_be_made() {
    // Rows R, T, M, N, {M}N, {N}M; R knows M.
    let rows = [atoms(4), vec![row(2, 0, &[3, 2]), row(2, 0, &[2, 3])]].concat();
    let answer = |steps: &[Step]| {
        let book = book(rows.clone(), &[party(0, &[2]), party(1, &[])], steps);
        let words = making_nothing(book, &[1]).words();
        listing(&words).map_err(|refusal| (refusal.number, refusal.place))
    };
    // Untaken N first and then taken M, and the other way round.
    assert_eq!(answer(&[step(1, 0, &[3, 2])]), Err((13, vec![0, 3])));
    assert_eq!(answer(&[step(1, 0, &[4])]), Err((13, vec![0, 3])));
    assert_eq!(answer(&[step(1, 0, &[2, 3])]), Err((10, vec![0, 2])));
    assert_eq!(answer(&[step(1, 0, &[5])]), Err((10, vec![0, 2])));
    // A 13 at step 0 before a 10 at step 1, and the other way round: R would have to make T's name.
    let (maker, taken) = (step(1, 0, &[3]), step(0, 1, &[1]));
    assert_eq!(answer(&[maker.clone(), taken.clone()]), Err((13, vec![0, 3])));
    assert_eq!(answer(&[taken, maker]), Err((10, vec![0, 1])));
    // Once R has sent N, T holds it; had R sent it to another, it would be taken.
    assert!(answer(&[step(0, 1, &[3]), step(1, 0, &[3])]).is_ok());
}

#[test]
fn marks_that_are_none() {
    let mark = Layout::of([1, 1, 0, 0]).party(0) + MARK;
    for (word, answer) in [
        (0, Ok(vec![1, 3, 2, 6, 0])),
        (1, Ok(vec![1, 3, 2, 6, 0])),
        (2, Err(Refusal::new(7, &[0]))),
        (u32::MAX, Err(Refusal::new(7, &[0]))),
    ] {
        let mut words = SMALLEST;
        words[mark] = word;
        assert_eq!(listing(&words), answer, "mark {word}");
    }
}

/// Example 1 as it was when a party had three words, 53 in all: the steps should begin two words later.
#[test]
fn an_old_book() {
    let old = [
        5, 8, 2, 28, 2, 34, 11, 42, //
        0, 0, 0, 0, 0, 0, 0, 0, 0, 0, 0, 0, 0, 0, 0, 0, //
        2, 0, 0, 3, //
        0, 3, 3, 1, 6, 3, //
        1, 0, 9, 1, 0, 1, 10, 1, //
        2, 3, 1, 0, 1, 2, 0, 1, 2, 3, 4,
    ];
    assert_eq!(listing(&old), Err(Refusal::new(3, &[5])));
    assert_eq!(print(&to_bytes(&old)), "refused 3 5");
}

/// Two parties that know row 0 send and compare halves of these sizes, one a step: 9 words, and
/// 9 more and twice the size for each.
fn halves_of_sizes(sizes: &[u32]) -> Book {
    let rows = [halves(1_022), atoms(1)].concat();
    let message = |size: &u32| step(0, 1, &[size - 2]);
    let steps: Vec<Step> = sizes.iter().map(message).collect();
    book(rows, &[party(0, &[0]), party(1_023, &[0])], &steps)
}

#[test]
fn the_longest_listing_that_is_printed() {
    let fits = [1_024, 1_024, 1_024, 1_024, 1_024, 1_024, 1_024, 500, 479];
    let words = halves_of_sizes(&fits).words();
    assert_eq!(listing(&words).map(|listing| listing.len()), Ok(16_384));
    assert_eq!(print(&to_bytes(&words)).split(' ').count(), 16_384);

    let over = [1_024, 1_024, 1_024, 1_024, 1_024, 1_024, 1_024, 500, 400, 75];
    let words = halves_of_sizes(&over).words();
    assert_eq!(listing(&words).map(|listing| listing.len()), Ok(16_385));
    assert_eq!(print(&to_bytes(&words)), "refused 12 16385");
}

#[test]
fn the_longest_book() {
    // 1,024 rows, 16 parties, 64 steps and 8,192 pool words: 448 operations with 8 arguments over
    // 576 atoms, 256 known rows each, 8 messages each.
    let operation = |tag| row(1, tag, &[0, 1, 2, 3, 4, 5, 6, 7]);
    let known: Vec<u32> = (0..256).collect();
    let parties: Vec<Party> = (0..16).map(|name| party(name, &known)).collect();
    let messages: Vec<u32> = (1_016..1_024).collect();
    let step = |number: u32| step(number % 16, (number + 1) % 16, &messages);
    let steps: Vec<Step> = (0..64).map(step).collect();
    let rows = [atoms(576), (0..448).map(operation).collect()].concat();
    let words = book(rows, &parties, &steps).words();
    assert_eq!((words.len(), LONGEST), (12_616, 12_616));
    // Each party sends 4 times 8 images of 19 words, and compares as many.
    let own = 4 * (3 + 8 * 19) + 4 * (4 + 8 * 21) + 2;
    let length = listing(&words).map(|listing| listing.len());
    assert_eq!(length, Ok(33 + 16 * own));
    assert_eq!(print(&to_bytes(&words)), format!("refused 12 {}", 33 + 16 * own));
    // They only send what they know, so that all of them may be marked 0.
    let all: Vec<usize> = (0..16).collect();
    let marked = making_nothing(read(&words).expect("a book"), &all).words();
    assert_eq!(listing(&marked).map(|listing| listing.len()), length);
    // One word more is no book's length.
    for words in [words, marked] {
        let longer = [&words[..], &[0]].concat();
        assert_eq!(longer.len(), 12_617);
        assert_eq!(listing(&longer), Err(Refusal::new(3, &[8])));
        assert_eq!(print(&to_bytes(&longer)), "refused 3 8");
    }
}

#[test]
fn the_small_program_reads_so_far_and_no_further() {
    let mut file = to_bytes(&EXAMPLE_1);
    file.push(0);
    assert_eq!(print(&file), "refused 1 0");
    file.extend([0, 0, 0]);
    assert_eq!(print(&file), "refused 3 8");
    // One word more than the longest book is read of a longer file, and that is a multiple of four bytes.
    assert_eq!((READ, 4 * READ), (12_617, 50_468));
    file.resize(4 * READ + 1, 0);
    assert_eq!(print(&file), "refused 3 8");
    file.resize(4 * READ - 1, 0);
    assert_eq!(print(&file), "refused 1 0");
    assert_eq!(print(&[]), "refused 1 0");
    assert_eq!(print(&[1]), "refused 1 0");
}
