//! The worked examples of source 000: the listings of books/example-1 to example-4 are the processes printed there, word
//! by word, with document 01's two corrections; and so is that of section 5's request, but for one stored row.
//!
//! Every line has a piece of a printed process and, beside it, the event that document 01's layout makes of it. `^chan_B`
//! is printed with a line over it, `new` as a Greek letter, and the map of an `After` above it. A variable that a process
//! binds is a placeholder, numbered in the order of binding, each party's from 0. Where a process names the channel of the
//! receiver, a listing names the step, from 0. An `After` is END, each variable with the step in which it came (document 02).

mod common;

use common::{atom, atoms, book, party, row, step, top};
use host::book::{Book, Refusal};
use host::translate::{print, translate};
use host::words::{line, of_bytes, to_bytes};
use std::fs;

const NEW: u32 = 1;
const SEND: u32 = 2;
const RECEIVE: u32 = 3;
const CHECK: u32 = 4;
const OPEN: u32 = 5;
const END: u32 = 6;

/// The images' codes: a row held as itself, a placeholder, an operation, a cipher.
const ROW: u32 = 0;
const VAR: u32 = 1;
const OP: u32 = 2;
const CIPHER: u32 = 3;

/// What is printed, and the words of its event.
type Line = (&'static str, Vec<u32>);

/// The book is the one of this name in `books/`, and its listing has these parties' lines and nothing else.
fn is_printed(name: &str, book: &Book, parties: &[&[Line]], length: usize) {
    let file = |end: &str| top().join(format!("books/{name}.{end}"));
    let words = book.words();
    let bytes = fs::read(file("book")).expect(name);
    assert_eq!(of_bytes(&bytes), Ok(words.clone()), "{name}");

    let mut listing = vec![0; 2 * length];
    let answer = translate(&words, &mut listing);
    let mut at = 1 + 2 * parties.len();
    let mut heads = vec![parties.len()];
    for (number, lines) in parties.iter().enumerate() {
        let start = at;
        for (printed, event) in *lines {
            assert_eq!(
                listing[at..at + event.len()],
                event[..],
                "{name}, party {number}: {printed}"
            );
            at += event.len();
        }
        heads.extend([start, at - start]);
    }
    assert_eq!((at, answer), (length, Ok(length)), "{name}");
    let heads: Vec<u32> = heads.into_iter().map(|head| head as u32).collect();
    assert_eq!(listing[..heads.len()], heads, "{name}");
    let told = fs::read_to_string(file("listing")).expect(name);
    assert_eq!(told, line(&listing[..length]) + "\n", "{name}");
    assert_eq!(told, print(&to_bytes(&words)) + "\n", "{name}");
}

/// ISO symmetric-key two-pass unilateral authentication.
#[test]
fn example_1() {
    const A: u32 = 0;
    const B: u32 = 1;
    const K: u32 = 2; // K_AB
    const N: u32 = 3; // N_B
    let book = book(
        [atoms(4), vec![row(2, 0, &[K, N, B])]].concat(),
        &[party(A, &[A, B, K]), party(B, &[A, B, K])],
        &[step(1, 0, &[N]), step(0, 1, &[4])],
    );
    let x = 0;
    let a = [
        ("chan_A(x).", vec![RECEIVE, 0, x, 1]),
        (
            "^chan_B<{x, B}K_AB>.",
            vec![SEND, 1, 1, CIPHER, 2, ROW, K, VAR, x, ROW, B],
        ),
        ("After_A, N_B -> x", vec![END, 1, N, x, 0]),
    ];
    let [y, z1, z2] = [0, 1, 2];
    let b = [
        ("new N_B.", vec![NEW, N]),
        ("^chan_A<N_B>.", vec![SEND, 0, 1, ROW, N]),
        ("chan_B(y).", vec![RECEIVE, 1, y, 1]),
        ("case y of {z1, z2}K_AB in", vec![OPEN, y, z1, 2, ROW, K]),
        ("if z1 = N_B then", vec![CHECK, z1, ROW, N]),
        ("if z2 = B then", vec![CHECK, z2, ROW, B]),
        ("After_B, nothing", vec![END, 0]),
    ];
    is_printed("example-1", &book, &[&a, &b], 52);
}

/// The Needham-Schroeder public-key protocol. "Read the private half of K_A in A's knowledge, in place of that of K_B:
/// the printed result uses it" (document 01).
#[test]
fn example_2() {
    const A: u32 = 0;
    const B: u32 = 1;
    const KA: u32 = 2;
    const KA_PUBLIC: u32 = 3;
    const KA_PRIVATE: u32 = 4;
    const KB: u32 = 5;
    const KB_PUBLIC: u32 = 6;
    const KB_PRIVATE: u32 = 7;
    const NA: u32 = 8;
    const NB: u32 = 10;
    let rows = vec![
        atom(),
        atom(),
        atom(),
        row(3, 0, &[KA]),
        row(4, 0, &[KA]),
        atom(),
        row(3, 0, &[KB]),
        row(4, 0, &[KB]),
        atom(),
        row(2, 0, &[KB_PUBLIC, NA, A]),
        atom(),
        row(2, 0, &[KA_PUBLIC, NA, NB]),
        row(2, 0, &[KB_PUBLIC, NB]),
    ];
    let book = book(
        rows,
        &[
            party(A, &[A, B, KA_PUBLIC, KA_PRIVATE, KB_PUBLIC]),
            party(B, &[A, B, KA_PUBLIC, KB_PUBLIC, KB_PRIVATE]),
        ],
        &[step(0, 1, &[9]), step(1, 0, &[11]), step(0, 1, &[12])],
    );
    let [y, y1, y2] = [0, 1, 2];
    let a = [
        ("new N_A.", vec![NEW, NA]),
        (
            "^chan_B<{N_A, A}K_B+>.",
            vec![SEND, 0, 1, CIPHER, 2, ROW, KB_PUBLIC, ROW, NA, ROW, A],
        ),
        ("chan_A(y).", vec![RECEIVE, 1, y, 1]),
        ("case y of {y1, y2}K_A- in", vec![OPEN, y, y1, 2, ROW, KA_PRIVATE]),
        ("if y1 = N_A then", vec![CHECK, y1, ROW, NA]),
        (
            "^chan_B<{y2}K_B+>.",
            vec![SEND, 2, 1, CIPHER, 1, ROW, KB_PUBLIC, VAR, y2],
        ),
        ("After_A, N_B -> y2", vec![END, 1, NB, y2, 1]),
    ];
    let [x, x1, x2, z, z1] = [0, 1, 2, 3, 4];
    let b = [
        ("chan_B(x).", vec![RECEIVE, 0, x, 1]),
        ("case x of {x1, x2}K_B- in", vec![OPEN, x, x1, 2, ROW, KB_PRIVATE]),
        ("if x2 = A then", vec![CHECK, x2, ROW, A]),
        ("new N_B.", vec![NEW, NB]),
        (
            "^chan_A<{x1, N_B}K_A+>.",
            vec![SEND, 1, 1, CIPHER, 2, ROW, KA_PUBLIC, VAR, x1, ROW, NB],
        ),
        ("chan_B(z).", vec![RECEIVE, 2, z, 1]),
        ("case z of {z1}K_B- in", vec![OPEN, z, z1, 1, ROW, KB_PRIVATE]),
        ("if z1 = N_B then", vec![CHECK, z1, ROW, NB]),
        ("After_B, N_A -> x1", vec![END, 1, NA, x1, 0]),
    ];
    is_printed("example-2", &book, &[&a, &b], 92);

    // With the knowledge as it is printed A couldn't open the answer, and would have to make N_B.
    let mut uncorrected = book;
    uncorrected.parties[0].known = vec![A, B, KA_PUBLIC, KB_PUBLIC, KB_PRIVATE];
    let refused = translate(&uncorrected.words(), &mut [0; 90]);
    assert_eq!(refused, Err(Refusal::new(10, &[2, NB])));
}

/// Andrew Secure RPC. "B's end prints z1 for N_A where the figure gives x3" (document 01): z1 is succ(N_B), and N_A was
/// bound to x3. A's second receiving is printed on a channel C_A, which nothing else names: it is chan_A.
#[test]
fn example_3() {
    const A: u32 = 0;
    const K: u32 = 1; // K_AB
    const B: u32 = 2;
    const NA: u32 = 3;
    const SUCC_NA: u32 = 5;
    const NB: u32 = 6;
    const SUCC_NB: u32 = 8;
    const K2: u32 = 10; // K'_AB
    const N2: u32 = 11; // N'_B
    const SUCC: u32 = 0;
    let rows = vec![
        atom(),
        atom(),
        atom(),
        atom(),
        row(2, 0, &[K, NA]),
        row(1, SUCC, &[NA]),
        atom(),
        row(2, 0, &[K, SUCC_NA, NB]),
        row(1, SUCC, &[NB]),
        row(2, 0, &[K, SUCC_NB]),
        atom(),
        atom(),
        row(2, 0, &[K, K2, N2]),
    ];
    let book = book(
        rows,
        &[party(A, &[A, K, B]), party(B, &[A, K, B])],
        &[
            step(0, 1, &[A, 4]),
            step(1, 0, &[7]),
            step(0, 1, &[9]),
            step(1, 0, &[12]),
        ],
    );
    let [y, y1, y2, w, w1, w2] = [0, 1, 2, 3, 4, 5];
    let a = [
        ("new N_A.", vec![NEW, NA]),
        (
            "^chan_B<A, {N_A}K_AB>.",
            vec![SEND, 0, 2, ROW, A, CIPHER, 1, ROW, K, ROW, NA],
        ),
        ("chan_A(y).", vec![RECEIVE, 1, y, 1]),
        ("case y of {y1, y2}K_AB in", vec![OPEN, y, y1, 2, ROW, K]),
        ("if y1 = succ(N_A) then", vec![CHECK, y1, OP, SUCC, 1, ROW, NA]),
        (
            "^chan_B<{succ(y2)}K_AB>.",
            vec![SEND, 2, 1, CIPHER, 1, ROW, K, OP, SUCC, 1, VAR, y2],
        ),
        ("C_A(w).", vec![RECEIVE, 3, w, 1]),
        ("case w of {w1, w2}K_AB in", vec![OPEN, w, w1, 2, ROW, K]),
        (
            "After_A, N_B -> y2, K'_AB -> w1, N'_B -> w2",
            vec![END, 3, NB, y2, 1, K2, w1, 3, N2, w2, 3],
        ),
    ];
    let [x1, x2, x3, z, z1] = [0, 1, 2, 3, 4];
    let b = [
        ("chan_B(x1, x2).", vec![RECEIVE, 0, x1, 2]),
        ("if x1 = A then", vec![CHECK, x1, ROW, A]),
        ("case x2 of {x3}K_AB in", vec![OPEN, x2, x3, 1, ROW, K]),
        ("new N_B.", vec![NEW, NB]),
        (
            "^chan_A<{succ(x3), N_B}K_AB>.",
            vec![SEND, 1, 1, CIPHER, 2, ROW, K, OP, SUCC, 1, VAR, x3, ROW, NB],
        ),
        ("chan_B(z).", vec![RECEIVE, 2, z, 1]),
        ("case z of {z1}K_AB in", vec![OPEN, z, z1, 1, ROW, K]),
        ("if z1 = succ(N_B) then", vec![CHECK, z1, OP, SUCC, 1, ROW, NB]),
        ("new K'_AB.", vec![NEW, K2]),
        ("new N'_B.", vec![NEW, N2]),
        (
            "^chan_A<{K'_AB, N'_B}K_AB>.",
            vec![SEND, 3, 1, CIPHER, 2, ROW, K, ROW, K2, ROW, N2],
        ),
        ("After_B, N_A -> z1, read x3", vec![END, 1, NA, x3, 0]),
    ];
    is_printed("example-3", &book, &[&a, &b], 135);
}

/// Woo and Lam's protocol Pi.
#[test]
fn example_4() {
    const A: u32 = 0;
    const B: u32 = 1;
    const S: u32 = 2;
    const KAS: u32 = 3;
    const KBS: u32 = 4;
    const NB: u32 = 5;
    const NB_UNDER_KAS: u32 = 6;
    let ciphers = vec![
        row(2, 0, &[KAS, NB]),
        row(2, 0, &[KBS, A, NB_UNDER_KAS]),
        row(2, 0, &[KBS, NB]),
    ];
    let book = book(
        [atoms(6), ciphers].concat(),
        &[
            party(A, &[A, B, S, KAS]),
            party(B, &[A, B, S, KBS]),
            party(S, &[A, B, S, KAS, KBS]),
        ],
        &[
            step(0, 1, &[A]),
            step(1, 0, &[NB]),
            step(0, 1, &[NB_UNDER_KAS]),
            step(1, 2, &[7]),
            step(2, 1, &[8]),
        ],
    );
    let y = 0;
    let a = [
        ("^chan_B<A>.", vec![SEND, 0, 1, ROW, A]),
        ("chan_A(y).", vec![RECEIVE, 1, y, 1]),
        ("^chan_B<{y}K_AS>.", vec![SEND, 2, 1, CIPHER, 1, ROW, KAS, VAR, y]),
        ("After_A, N_B -> y", vec![END, 1, NB, y, 1]),
    ];
    let [x, z, u, u1] = [0, 1, 2, 3];
    let b = [
        ("chan_B(x).", vec![RECEIVE, 0, x, 1]),
        ("if x = A then", vec![CHECK, x, ROW, A]),
        ("new N_B.", vec![NEW, NB]),
        ("^chan_A<N_B>.", vec![SEND, 1, 1, ROW, NB]),
        ("chan_B(z).", vec![RECEIVE, 2, z, 1]),
        (
            "^chan_S<{A, z}K_BS>.",
            vec![SEND, 3, 1, CIPHER, 2, ROW, KBS, ROW, A, VAR, z],
        ),
        ("chan_B(u).", vec![RECEIVE, 4, u, 1]),
        ("case u of {u1}K_BS in", vec![OPEN, u, u1, 1, ROW, KBS]),
        ("if u1 = N_B then", vec![CHECK, u1, ROW, NB]),
        ("After_B, {N_B}K_AS -> z", vec![END, 1, NB_UNDER_KAS, z, 2]),
    ];
    let [w, w1, w2, w3] = [0, 1, 2, 3];
    let s = [
        ("chan_S(w).", vec![RECEIVE, 3, w, 1]),
        ("case w of {w1, w2}K_BS in", vec![OPEN, w, w1, 2, ROW, KBS]),
        ("if w1 = A then", vec![CHECK, w1, ROW, A]),
        ("case w2 of {w3}K_AS in", vec![OPEN, w2, w3, 1, ROW, KAS]),
        ("^chan_B<{w3}K_BS>.", vec![SEND, 4, 1, CIPHER, 1, ROW, KBS, VAR, w3]),
        ("After_S, N_B -> w3", vec![END, 1, NB, w3, 3]),
    ];
    is_printed("example-4", &book, &[&a, &b, &s], 113);
}

/// Example 2's protocol on request of B, section 5 before figure 4. A's end is printed without the name that A stored; by
/// figure 3 it is there, as whatever isn't held as itself is.
#[test]
fn the_request_of_section_5() {
    const A: u32 = 0;
    const KA: u32 = 1;
    const KA_PUBLIC: u32 = 2;
    const KA_PRIVATE: u32 = 3;
    const KB: u32 = 4;
    const KB_PUBLIC: u32 = 5;
    const B: u32 = 6;
    const KB_PRIVATE: u32 = 7;
    const NA: u32 = 8;
    const NB: u32 = 10;
    let rows = vec![
        atom(),
        atom(),
        row(3, 0, &[KA]),
        row(4, 0, &[KA]),
        atom(),
        row(3, 0, &[KB]),
        atom(),
        row(4, 0, &[KB]),
        atom(),
        row(2, 0, &[KB_PUBLIC, NA, A]),
        atom(),
        row(2, 0, &[KA_PUBLIC, NA, NB]),
        row(2, 0, &[KB_PUBLIC, NB]),
    ];
    let book = book(
        rows,
        &[
            party(A, &[A, KA_PUBLIC, KA_PRIVATE, KB_PUBLIC]),
            party(B, &[A, KA_PUBLIC, KB_PUBLIC, B, KB_PRIVATE]),
        ],
        &[step(1, 0, &[B]), step(0, 1, &[9]), step(1, 0, &[11]), step(0, 1, &[12])],
    );
    let [w, y, y1, y2] = [0, 1, 2, 3];
    let a = [
        ("chan_A(w).", vec![RECEIVE, 0, w, 1]),
        ("new N_A.", vec![NEW, NA]),
        (
            "^chan_B<{N_A, A}K_B+>.",
            vec![SEND, 1, 1, CIPHER, 2, ROW, KB_PUBLIC, ROW, NA, ROW, A],
        ),
        ("chan_A(y).", vec![RECEIVE, 2, y, 1]),
        ("case y of {y1, y2}K_A- in", vec![OPEN, y, y1, 2, ROW, KA_PRIVATE]),
        ("if y1 = N_A then", vec![CHECK, y1, ROW, NA]),
        (
            "^chan_B<{y2}K_B+>.",
            vec![SEND, 3, 1, CIPHER, 1, ROW, KB_PUBLIC, VAR, y2],
        ),
        ("After_A, N_B -> y2, and B -> w", vec![END, 2, B, w, 0, NB, y2, 2]),
    ];
    let [x, x1, x2, z, z1] = [0, 1, 2, 3, 4];
    let b = [
        ("^chan_A<B>.", vec![SEND, 0, 1, ROW, B]),
        ("chan_B(x).", vec![RECEIVE, 1, x, 1]),
        ("case x of {x1, x2}K_B- in", vec![OPEN, x, x1, 2, ROW, KB_PRIVATE]),
        ("if x2 = A then", vec![CHECK, x2, ROW, A]),
        ("new N_B.", vec![NEW, NB]),
        (
            "^chan_A<{x1, N_B}K_A+>.",
            vec![SEND, 2, 1, CIPHER, 2, ROW, KA_PUBLIC, VAR, x1, ROW, NB],
        ),
        ("chan_B(z).", vec![RECEIVE, 3, z, 1]),
        ("case z of {z1}K_B- in", vec![OPEN, z, z1, 1, ROW, KB_PRIVATE]),
        ("if z1 = N_B then", vec![CHECK, z1, ROW, NB]),
        ("After_B, N_A -> x1", vec![END, 1, NA, x1, 1]),
    ];
    is_printed("example-request", &book, &[&a, &b], 104);
}
