//! Nghiralum's translator, rehearsal, summaries, judge and check of authenticity types, called on plain byte slices.
//!
//! A *book* holds the narration of a handshake: rows, parties, steps and a pool, as words of 32 bits, four bytes each,
//! low byte first. [`translate`] turns it into a *listing*, one program per party; [`rehearse`] plays these programs
//! under a *schedule*, a row of party numbers, and counts the events that each party has done. [`write_summary`] writes
//! a *summary*, who held what since when, and [`held_after`] answers questions from it alone. [`judge`] says whether what
//! another translator wrote for a party is the same program as ours. [`check`] checks a *derivation*, which shows by the
//! rules of authenticity types that a process is safe, and [`keeps_apart`] says whether the process's bound names are
//! such that this means what it seems to. The repository's README describes books, listings and refusals,
//! docs/DERIVATIONS.md derivations.
//!
//! All are proved in Rattle, and this package only hands slices over: for any bytes whatever a call ends with the
//! output or with one [`Refusal`], writes nothing but the output, and on a refusal nothing at all. No call panics.
//!
//! ```
//! let book = std::fs::read("../books/example-1.book").expect("a book");
//!
//! let listing = nghiralum::listing(&book).expect("it can be played");
//! assert_eq!(listing.len(), 4 * 52);
//! assert_eq!(listing[..4], 2u32.to_le_bytes()); // two parties
//!
//! // Two moves by party 1, then one by party 0.
//! let schedule: Vec<u8> = [1u32, 1, 0].iter().flat_map(|party| party.to_le_bytes()).collect();
//! let mut done = [0; 8];
//! let length = nghiralum::rehearse(&book, &schedule, &mut done).expect("room for two parties");
//! assert_eq!(done[..length], [1, 0, 0, 0, 2, 0, 0, 0]); // one event by party 0, two by party 1
//!
//! // Did party 0 hold row 3 after step 0?
//! let summary = nghiralum::summary(&book).expect("it can be played");
//! assert_eq!(nghiralum::held_after(&summary, 0, 3, 0), Ok(true));
//!
//! // Is this, which another translator wrote for party 0, the program of ours?
//! let theirs = &listing[4 * 5..4 * 25];
//! assert_eq!(nghiralum::judge(&book, 0, theirs), Ok(nghiralum::Verdict::Same));
//!
//! // Is `begin a; STOP` safe, by these three lines?
//! let bytes = |words: &[u32]| -> Vec<u8> { words.iter().flat_map(|word| word.to_le_bytes()).collect() };
//! let asked = bytes(&[1, 9, 1, 0, 5]);
//! let lines = [3, 1, 0, 0, 0, 29, 0, 0, 0, 0, 16, 0, 0, 0, 29, 31, 0, 0, 0, 17, 1, 0, 0, 29, 28, 0, 0, 0, 9, 1, 0, 5];
//! assert_eq!(nghiralum::check(&asked, &bytes(&lines)), Ok(nghiralum::Finding::Safe));
//!
//! let refusal = nghiralum::listing(&book[..50]).expect_err("no whole words");
//! assert_eq!((refusal.number(), refusal.place()), (1, 0));
//! ```
//!
//! # Lengths
//!
//! What a call answers is a length in *bytes*, so that `&out[..length]` is the output. Refusal 12, which says that `out`
//! is too short, counts *words*, as it does everywhere; [`Refusal::bytes_needed`] has it in bytes. Only whole words of
//! `out` are written, so up to three bytes at its end are never touched.
//!
//! # Stack
//!
//! No heap is used but for the vectors of [`listing`] and [`summary`], and for the room of [`check`] and [`keeps_apart`],
//! as large as what they are given. The deepest books take less than 2 MB of stack, which is what
//! Rust gives a thread by default and is tested; on a thread with less, a deep book can end the process, as any
//! recursion does that finds no stack.

#![deny(missing_docs)]

mod finding;
mod refusal;
mod verdict;

pub use finding::Finding;
pub use refusal::Refusal;
pub use verdict::Verdict;

// As `nghiralum.h` declares them.
unsafe extern "C" {
    fn nghiralum_translate(book: *const u8, book_len: usize, out: *mut u8, out_len: usize) -> u64;
    fn nghiralum_rehearse(
        book: *const u8,
        book_len: usize,
        schedule: *const u8,
        schedule_len: usize,
        out: *mut u8,
        out_len: usize,
    ) -> u64;
    fn nghiralum_summary(book: *const u8, book_len: usize, out: *mut u8, out_len: usize) -> u64;
    fn nghiralum_ask(summary: *const u8, summary_len: usize, party: u32, row: u32, step: u32) -> u64;
    fn nghiralum_judge(book: *const u8, book_len: usize, party: u32, listing: *const u8, listing_len: usize) -> u64;
    fn nghiralum_check(
        asked: *const u8,
        asked_len: usize,
        derivation: *const u8,
        derivation_len: usize,
        room: *mut u32,
        room_len: usize,
    ) -> u64;
    fn nghiralum_apart(asked: *const u8, asked_len: usize, room: *mut u32, room_len: usize) -> u64;
}

/// Translates a book: its listing stands in the first bytes of `out`, and the answer is the listing's length in bytes.
///
/// Bytes of `out` past the listing stay as they were. How long a listing is can't be told from the book's length; where
/// no size is known, [`listing`] takes as much as is needed.
///
/// # Errors
///
/// The first of refusals 1 to 10, 13 and 12 that applies; a book whose length is no multiple of four bytes is refusal 1.
/// All of `out` is as it was then.
///
/// ```
/// // One row, an atom; one party, named by it, who knows nothing and may make; no steps.
/// let words = [1u32, 8, 1, 12, 0, 16, 0, 16, 0, 0, 0, 0, 0, 0, 0, 1];
/// let book: Vec<u8> = words.iter().flat_map(|word| word.to_le_bytes()).collect();
///
/// let mut out = [0xff; 24];
/// let length = nghiralum::translate(&book, &mut out).expect("a listing");
/// // One party, its part at word 3 with 2 words: END, and nothing stored.
/// assert_eq!(out[..length], [1, 0, 0, 0, 3, 0, 0, 0, 2, 0, 0, 0, 6, 0, 0, 0, 0, 0, 0, 0]);
/// assert_eq!(out[length..], [0xff; 4]);
///
/// let refusal = nghiralum::translate(&book, &mut out[..19]).expect_err("four words and three bytes");
/// assert_eq!((refusal.number(), refusal.place()), (12, 5));
/// ```
pub fn translate(book: &[u8], out: &mut [u8]) -> Result<usize, Refusal> {
    // SAFETY: the slices are what they say; a function of the proved library reads and writes inside them alone.
    let answer = unsafe { nghiralum_translate(book.as_ptr(), book.len(), out.as_mut_ptr(), out.len()) };
    refusal::unpack(answer)
}

/// Plays a book's programs under a schedule: for each party four bytes of `out` say how many events it has done, its
/// END not counted, and the answer is their length in bytes.
///
/// A word of the schedule is a move by the party with that number. There are at most 16 parties, so 64 bytes are always
/// room enough.
///
/// # Errors
///
/// The first of refusals 1 to 10, 13, 11 and 12 that applies; a book or a schedule whose length is no multiple of four
/// bytes is refusal 1, whatever else is wrong. All of `out` is as it was then.
///
/// ```
/// let book = std::fs::read("../books/example-1.book").expect("a book");
/// let mut done = [0; 64];
///
/// let length = nghiralum::rehearse(&book, &[1, 0, 0, 0], &mut done).expect("a move by party 1");
/// assert_eq!(done[..length], [0, 0, 0, 0, 1, 0, 0, 0]);
///
/// let refusal = nghiralum::rehearse(&book, &[2, 0, 0, 0], &mut done).expect_err("there is no party 2");
/// assert_eq!(refusal.to_string(), "refusal 11: move 0 of the schedule names no party");
/// ```
pub fn rehearse(book: &[u8], schedule: &[u8], out: &mut [u8]) -> Result<usize, Refusal> {
    let (moves, count) = (schedule.as_ptr(), schedule.len());
    // SAFETY: as in `translate`.
    let answer = unsafe { nghiralum_rehearse(book.as_ptr(), book.len(), moves, count, out.as_mut_ptr(), out.len()) };
    refusal::unpack(answer)
}

/// Writes a book's summary, who held what since when: it stands in the first bytes of `out`, and the answer is its
/// length in bytes.
///
/// A summary is words like a book: the counts of parties, of rows and of steps, and then for each party and each row 0
/// if the party was given the row at the start, s + 1 if it holds it from step s on, and the count of steps and 1 if it
/// never does. To hold a row is more than to be able to build it. Bytes of `out` past the summary stay as they were.
/// There are at most 16,387 words, so 65,548 bytes are always room enough; [`summary`] takes as much as is needed.
///
/// # Errors
///
/// The first of refusals 1 to 10, 13 and 12 that applies; a book whose length is no multiple of four bytes is refusal 1.
/// All of `out` is as it was then.
///
/// ```
/// let book = std::fs::read("../books/example-1.book").expect("a book");
/// let mut out = vec![0xff; 65_548];
///
/// let length = nghiralum::write_summary(&book, &mut out).expect("a summary");
/// let words: Vec<u32> = (out[..length].chunks_exact(4))
///     .map(|word| u32::from_le_bytes([word[0], word[1], word[2], word[3]]))
///     .collect();
/// assert_eq!(words[..3], [2, 5, 2]); // two parties, five rows, two steps
/// assert_eq!(words[3..8], [0, 0, 0, 1, 3]); // party 0: three rows from the start, row 3 from step 0 on, row 4 never
/// assert_eq!(out[length], 0xff);
///
/// let refusal = nghiralum::write_summary(&book, &mut out[..51]).expect_err("twelve words and three bytes");
/// assert_eq!((refusal.number(), refusal.place()), (12, 13));
/// ```
pub fn write_summary(book: &[u8], out: &mut [u8]) -> Result<usize, Refusal> {
    // SAFETY: as in `translate`.
    let answer = unsafe { nghiralum_summary(book.as_ptr(), book.len(), out.as_mut_ptr(), out.len()) };
    refusal::unpack(answer)
}

/// Whether a party held a row after a step, by a summary alone: the book isn't asked for.
///
/// Parties, rows and steps count from 0. For a summary that [`write_summary`] wrote, the answer is that of the whole walk
/// through the book; any other bytes of a summary's length are answered from what they say.
///
/// # Errors
///
/// Refusal 1 if the length is no multiple of four bytes; then 20 if it is not that of a summary with so many parties and
/// rows as its first two words say; then 21 if there is no such party, no such row or no such step, with the first
/// number of the three that is out of range. A book without steps has no questions, so that all are refusal 21.
///
/// ```
/// let book = std::fs::read("../books/example-3.book").expect("a book");
/// let summary = nghiralum::summary(&book).expect("a summary");
///
/// assert_eq!(nghiralum::held_after(&summary, 0, 0, 0), Ok(true)); // its own name
///
/// let refusal = nghiralum::held_after(&summary, 99, 0, 0).expect_err("there is no party 99");
/// assert_eq!((refusal.number(), refusal.place()), (21, 99));
/// let refusal = nghiralum::held_after(&summary[4..], 0, 0, 0).expect_err("a word is missing");
/// assert_eq!((refusal.number(), refusal.place() as usize), (20, summary.len() / 4 - 1));
/// ```
pub fn held_after(summary: &[u8], party: u32, row: u32, step: u32) -> Result<bool, Refusal> {
    // SAFETY: as in `translate`; nothing is written.
    let answer = unsafe { nghiralum_ask(summary.as_ptr(), summary.len(), party, row, step) };
    refusal::unpack_reply(answer)
}

/// Judges what another translator wrote for one party of a book: whether a one-to-one renaming of its placeholders turns
/// it into our program, and if not, the first word at which none can.
///
/// `listing` is the party's part alone, from its first event to its END, without the listing's head. It may be of any
/// length and hold any words. All words but placeholders must be ours. RECEIVE and OPEN hand out a run of numbers, as many
/// as ours do; these may be any that the part has handed out for nothing else, one behind another, none past the largest
/// word. A run of none has our own number.
///
/// The time grows with the words of our program, however long the part is, as long as numbers rise, or fall, from run to
/// run. For a run that lies between the numbers of earlier ones all words before it are gone through again; a part that
/// is made for it takes time that grows with the square of our program's length: docs/BENCH.md has the times.
///
/// # Errors
///
/// Refusal 1 if the length of either is no multiple of four bytes; then the first of refusals 1 to 10 and 13 that applies
/// to the book; then 22 if it has no such party, with the party's number.
///
/// ```
/// use nghiralum::Verdict;
///
/// let book = std::fs::read("../books/example-1.book").expect("a book");
/// let judge = |words: &[u32]| {
///     let listing: Vec<u8> = words.iter().flat_map(|word| word.to_le_bytes()).collect();
///     nghiralum::judge(&book, 0, &listing)
/// };
///
/// // RECEIVE, SEND and END of party 0, which calls 70 what we call 0.
/// let theirs = [3, 0, 70, 1, 2, 1, 1, 3, 2, 0, 2, 1, 70, 0, 1, 6, 1, 3, 70, 0];
/// assert_eq!(judge(&theirs), Ok(Verdict::Same));
///
/// // No RECEIVE hands out 71.
/// let mut other = theirs;
/// other[12] = 71;
/// assert_eq!(judge(&other), Ok(Verdict::Differs(12)));
/// assert_eq!(judge(&theirs[..15]), Ok(Verdict::Differs(15))); // END is missing
///
/// let refusal = nghiralum::judge(&book, 2, &[]).expect_err("there are two parties");
/// assert_eq!((refusal.number(), refusal.place()), (22, 2));
/// ```
pub fn judge(book: &[u8], party: u32, listing: &[u8]) -> Result<Verdict, Refusal> {
    let (theirs, count) = (listing.as_ptr(), listing.len());
    // SAFETY: as in `translate`; nothing is written.
    let answer = unsafe { nghiralum_judge(book.as_ptr(), book.len(), party, theirs, count) };
    verdict::unpack(answer)
}

/// Checks a derivation of authenticity types: whether it shows that what is asked, a process in an environment, has the
/// empty effect; and if not, the first line that is wrong, if one is.
///
/// Both are words in the layout of docs/DERIVATIONS.md, four bytes each, of any length and with anything in them. By the
/// paper's theorem a process that is safe reaches no `end L` without a `begin L` of its own before it, if its bound names
/// are kept apart: [`keeps_apart`] tells that. The room for the words is taken from the heap.
///
/// # Errors
///
/// Refusal 1 if the length of either is no multiple of four bytes; then 24 if there are more than 1,024 lines, with their
/// count, or else if a line states more than 64 effects, with the count of the smallest such line.
///
/// ```
/// use nghiralum::Finding;
///
/// let bytes = |words: &[u32]| -> Vec<u8> { words.iter().flat_map(|word| word.to_le_bytes()).collect() };
/// // begin a; begin b; end a; end b; STOP, in the empty environment, with a = 0 and b = 1.
/// let asked = bytes(&[1, 9, 1, 0, 9, 1, 1, 10, 1, 0, 10, 1, 1, 5]);
/// let mut lines = vec![
///     6, // lines
///     1, 0, 0, 0, 56, 0, 0, 0, 0, // the empty environment is good
///     16, 0, 0, 0, 56, 67, 0, 0, 0, // STOP : []
///     18, 1, 0, 0, 56, 64, 0, 71, 1, // end b; .. : [end b]
///     18, 2, 0, 0, 56, 61, 0, 68, 2, // end a; .. : [end a, end b]
///     17, 3, 0, 0, 56, 58, 0, 68, 1, // begin b; .. : [end a]
///     17, 4, 0, 0, 56, 55, 0, 0, 0, // begin a; .. : []
///     9, 1, 0, 9, 1, 1, 10, 1, 0, 10, 1, 1, 5, // the process, and in it its parts
///     1, 1, 0, 1, 1, 1, // end a, end b
/// ];
/// assert_eq!(nghiralum::check(&asked, &bytes(&lines)), Ok(Finding::Safe));
/// assert_eq!(nghiralum::check(&asked[..4], &bytes(&lines)), Ok(Finding::Another));
///
/// lines[29] = 4; // line 3 rests on a later one
/// assert_eq!(nghiralum::check(&asked, &bytes(&lines)), Ok(Finding::Bad(3)));
///
/// lines[27] = 65; // line 2 states 65 effects
/// let refusal = nghiralum::check(&asked, &bytes(&lines)).expect_err("too many");
/// assert_eq!((refusal.number(), refusal.place()), (24, 65));
/// ```
pub fn check(asked: &[u8], derivation: &[u8]) -> Result<Finding, Refusal> {
    let mut room = vec![0; asked.len() / 4 + derivation.len() / 4];
    let (lines, length) = (derivation.as_ptr(), derivation.len());
    // SAFETY: as in `translate`; the room is apart from the others.
    let answer = unsafe {
        nghiralum_check(
            asked.as_ptr(),
            asked.len(),
            lines,
            length,
            room.as_mut_ptr(),
            room.len(),
        )
    };
    finding::unpack(answer)
}

/// Whether what is asked, a process in an environment, keeps its bound names apart: all its binders are different from
/// each other and from the environment's names. Words that spell no process do not.
///
/// [`check`] does not ask it. Where it holds, "safe" is what the paper's theorem is about.
///
/// # Errors
///
/// Refusal 1 if the length is no multiple of four bytes.
///
/// ```
/// let bytes = |words: &[u32]| -> Vec<u8> { words.iter().flat_map(|word| word.to_le_bytes()).collect() };
/// // new (x : Un); new (y : Un); STOP, and with one name for both.
/// assert_eq!(nghiralum::keeps_apart(&bytes(&[1, 1, 3, 1, 1, 4, 1, 5])), Ok(true));
/// assert_eq!(nghiralum::keeps_apart(&bytes(&[1, 1, 3, 1, 1, 3, 1, 5])), Ok(false));
/// ```
pub fn keeps_apart(asked: &[u8]) -> Result<bool, Refusal> {
    let mut room = vec![0; asked.len() / 4];
    // SAFETY: as in `check`.
    let answer = unsafe { nghiralum_apart(asked.as_ptr(), asked.len(), room.as_mut_ptr(), room.len()) };
    refusal::unpack_reply(answer)
}

/// The listing of a book, in as many bytes as it has.
///
/// The length is asked for first, through refusal 12, so the book is gone through twice. No listing has more
/// than 16,830,529 words, some 67 MB.
///
/// # Errors
///
/// The first of refusals 1 to 10 and 13 that applies.
///
/// ```
/// let book = std::fs::read("../books/example-1.book").expect("a book");
/// let words: Vec<u32> = (nghiralum::listing(&book).expect("a listing").chunks_exact(4))
///     .map(|word| u32::from_le_bytes([word[0], word[1], word[2], word[3]]))
///     .collect();
/// assert_eq!(words[..5], [2, 5, 20, 25, 27]); // two parties: 20 words from word 5, 27 words from word 25
/// ```
pub fn listing(book: &[u8]) -> Result<Vec<u8>, Refusal> {
    whole(|out| translate(book, out))
}

/// The summary of a book, in as many bytes as it has: see [`write_summary`].
///
/// The length is asked for first, as for [`listing`].
///
/// # Errors
///
/// The first of refusals 1 to 10 and 13 that applies.
///
/// ```
/// // One row, an atom; one party, named by it, who knows nothing and may make; no steps.
/// let words = [1u32, 8, 1, 12, 0, 16, 0, 16, 0, 0, 0, 0, 0, 0, 0, 1];
/// let book: Vec<u8> = words.iter().flat_map(|word| word.to_le_bytes()).collect();
///
/// // One party, one row, no step; it never holds the row, not even as its own name.
/// let summary = nghiralum::summary(&book).expect("a summary");
/// assert_eq!(summary, [1, 0, 0, 0, 1, 0, 0, 0, 0, 0, 0, 0, 1, 0, 0, 0]);
/// ```
pub fn summary(book: &[u8]) -> Result<Vec<u8>, Refusal> {
    whole(|out| write_summary(book, out))
}

/// An output in as many bytes as it has, asked for with no room and then with enough.
fn whole(write: impl Fn(&mut [u8]) -> Result<usize, Refusal>) -> Result<Vec<u8>, Refusal> {
    let needed = match write(&mut []) {
        Err(refusal) => refusal.bytes_needed().ok_or(refusal)?,
        // An output has words, so it never fits into nothing.
        Ok(length) => length,
    };
    let mut output = vec![0; needed];
    let length = write(&mut output)?;
    output.truncate(length);
    Ok(output)
}
