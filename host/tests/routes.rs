//! The comparison of the routes itself: it passes what is right, and what is wrong in one point is told.

mod common;

use common::{complains, top, Folder, EXAMPLE_1};
use host::book::Refusal;
use host::judge::{judge, Verdict};
use host::library::{packed, packed_reply, packed_verdict};
use host::routes::{self, Judging, Side, Summaries, Trials};
use host::{bytes, rehearse, summary, translate, words};

type Answer = Result<usize, Refusal>;
type Reply = Result<bool, Refusal>;

/// The host in the place of the proved code, with one thing wrong on bytes or on words.
#[derive(Clone, Copy, PartialEq, Debug)]
enum Fake {
    Right,
    HighByteFirst,
    SpareByteWritten,
    RoomInBytes,
    RefusalWrites,
    WrittenPastTheOutput,
    HighBitsOfTheAnswer,
    OddBookLetPass,
    OddScheduleLetPass,
    BookBeforeOddSchedule,
    OneWordTooFew,
    OneMoveTooFew,
    NoRehearsal,
    WordsPastTheOutput,
    WordsAnswer,
    MarksIgnored,
    MakerForTaken,
    TakenForMaker,
    MakerWithoutRow,
    NeverIsTheLastStep,
    BuildableForHeld,
    SummaryBytesShort,
    AtMostTheStep,
    StrideOfParties,
    RangeBeforeLength,
    LengthInBytes,
    NarrowProduct,
    LastNumberFirst,
    StepMayBeL,
    OddSummaryLetPass,
    NoOnBytes,
    AllTheSame,
    NoRenaming,
    TheLongerLength,
    PartyBeforeTheBook,
    PartyOfBytes,
    SmallPartyLetPass,
    PlaceInBytes,
    SameIsNothing,
    OddListingLetPass,
    BookBeforeOddListing,
}

/// A book's words with all parties marked 1, where it keeps its rules.
fn all_may_make(book: &[u32]) -> Vec<u32> {
    let Ok(mut whole) = host::book::read(book) else {
        return book.to_vec();
    };
    whole.parties.iter_mut().for_each(|party| party.makes = true);
    whole.words()
}

fn whole(bytes: &[u8]) -> &[u8] {
    &bytes[..bytes.len() / 4 * 4]
}

fn at_most(bytes: &[u8], words: usize) -> &[u8] {
    if bytes.len().is_multiple_of(4) {
        &bytes[..bytes.len().min(4 * words)]
    } else {
        bytes
    }
}

impl Fake {
    /// What comes of an answer and of the bytes that were lent for it.
    fn spoil(self, answer: Answer, out: &mut [u8]) -> u64 {
        let spare = out.len() % 4;
        match (self, &answer) {
            (Fake::HighByteFirst, Ok(length)) => {
                out[..4 * length].chunks_exact_mut(4).for_each(|four| four.reverse());
            }
            (Fake::SpareByteWritten, Ok(_)) if spare > 0 => {
                let last = out.len() - 1;
                out[last] ^= 1;
            }
            (Fake::RoomInBytes, Err(Refusal { number: 12, place })) => {
                return packed(&Err(Refusal::new(12, &[4 * place[0]])));
            }
            (Fake::RefusalWrites, Err(_)) if !out.is_empty() => out[0] ^= 1,
            (Fake::WrittenPastTheOutput, Ok(length)) if out.len() >= 4 * length + 4 => out[4 * length] ^= 1,
            (Fake::HighBitsOfTheAnswer, Err(_)) => return packed(&answer) | 1 << 63,
            (Fake::MakerWithoutRow, Err(Refusal { number: 13, place })) => {
                return packed(&Err(Refusal::new(13, &place[..1])));
            }
            _ => (),
        }
        packed(&answer)
    }
}

/// A question's answer by words of the right length, with numbers in range.
fn by_words(summary: &[u32], [party, row, step]: [u32; 3], stride: u32, after: u32) -> Reply {
    let at = 3 + party as usize * stride as usize + row as usize;
    Ok(summary.get(at).is_some_and(|word| *word < step + after))
}

impl Summaries for Fake {
    fn write(&self, book: &[u32], out: &mut [u32]) -> Answer {
        let length = summary::write(book, out)?;
        let steps = out[2];
        match self {
            Fake::NeverIsTheLastStep => out[3..length]
                .iter_mut()
                .filter(|word| **word > steps)
                .for_each(|word| *word = steps),
            Fake::BuildableForHeld => {
                let whole = host::book::read(book)?;
                let walk = translate::Translation::start(&whole);
                for (at, word) in out[3..length].iter_mut().enumerate() {
                    let (party, row) = (at / whole.rows.len(), at % whole.rows.len());
                    if walk.dictionary(party as u32).image(&walk.terms[row]).is_some() {
                        *word = 0;
                    }
                }
            }
            _ => (),
        }
        Ok(length)
    }

    fn ask(&self, summary: &[u32], numbers: [u32; 3]) -> Reply {
        let [party, row, step] = numbers;
        let right = summary::ask(summary, party, row, step);
        let count = |at: usize| summary.get(at).copied().unwrap_or(0);
        let (parties, rows, steps) = (count(0), count(1), count(2));
        match (self, &right) {
            (Fake::AtMostTheStep, Ok(_)) => by_words(summary, numbers, rows, 1),
            (Fake::StrideOfParties, Ok(_)) => by_words(summary, numbers, parties, 2),
            (Fake::RangeBeforeLength, Err(_)) if summary.len() > 2 && party >= parties => {
                Err(Refusal::new(21, &[party]))
            }
            (Fake::LengthInBytes, Err(Refusal { number: 20, place })) => Err(Refusal::new(20, &[4 * place[0]])),
            (Fake::NarrowProduct, Err(Refusal { number: 20, .. }))
                if summary.len() as u32 == parties.wrapping_mul(rows).wrapping_add(3) =>
            {
                Ok(true)
            }
            (Fake::LastNumberFirst, Err(Refusal { number: 21, .. })) if step >= steps => Err(Refusal::new(21, &[step])),
            (Fake::StepMayBeL, Err(Refusal { number: 21, place })) if *place == [steps] && row < rows => Ok(true),
            _ => right,
        }
    }

    fn write_bytes(&self, book: &[u8], out: &mut [u8]) -> u64 {
        let room = match self {
            Fake::SummaryBytesShort => out.len().saturating_sub(1),
            _ => out.len(),
        };
        let answer = bytes::write_summary(book, &mut out[..room]);
        self.spoil(answer, out)
    }

    fn ask_bytes(&self, summary: &[u8], [party, row, step]: [u32; 3]) -> u64 {
        let summary = match self {
            Fake::OddSummaryLetPass => whole(summary),
            _ => summary,
        };
        match (self, bytes::ask(summary, party, row, step)) {
            (Fake::NoOnBytes, Ok(_)) => 0,
            (_, right) => packed_reply(&right),
        }
    }
}

impl Judging for Fake {
    fn judge(&self, book: &[u32], party: u32, listing: &[u32]) -> Result<Verdict, Refusal> {
        let right = judge(book, party, listing);
        match (self, &right) {
            (Fake::AllTheSame, Ok(_)) => Ok(Verdict::Same),
            (Fake::NoRenaming, Ok(Verdict::Same)) => {
                let programs = translate::programs(&host::book::read(book)?)?;
                let ours = translate::part(&programs[party as usize]);
                let differs = (0..ours.len()).find(|at| ours[*at] != listing[*at]);
                Ok(differs.map_or(Verdict::Same, Verdict::Differs))
            }
            (Fake::TheLongerLength, Ok(Verdict::Differs(place))) if *place == listing.len() => {
                Ok(Verdict::Differs(place + 1))
            }
            (Fake::PartyBeforeTheBook, Err(_)) if party == u32::MAX => Err(Refusal::new(22, &[party])),
            (Fake::SmallPartyLetPass, Err(Refusal { number: 22, .. })) if party < 16 => Ok(Verdict::Differs(0)),
            _ => right,
        }
    }

    fn judge_bytes(&self, book: &[u8], party: u32, listing: &[u8]) -> u64 {
        let listing = match self {
            Fake::OddListingLetPass => whole(listing),
            _ => listing,
        };
        let right = match (self, bytes::programs(book)) {
            (Fake::BookBeforeOddListing, Err(refusal)) => Err(refusal),
            _ => bytes::judge(book, party, listing),
        };
        packed_verdict(&match (self, right) {
            (Fake::PlaceInBytes, Ok(Verdict::Differs(place))) => Ok(Verdict::Differs(4 * place)),
            (Fake::SameIsNothing, Ok(Verdict::Same)) => Ok(Verdict::Differs(0)),
            (Fake::PartyOfBytes, Err(Refusal { number: 22, .. })) => Err(Refusal::new(22, &[party & 0xff])),
            (_, right) => right,
        })
    }
}

impl Side for Fake {
    fn judging(&self) -> Option<&dyn Judging> {
        Some(self)
    }

    fn summaries(&self) -> Option<&dyn Summaries> {
        Some(self)
    }

    fn translate(&self, book: &[u32], out: &mut [u32]) -> Answer {
        let book = match self {
            Fake::MarksIgnored => &all_may_make(book),
            _ => book,
        };
        let answer = translate::translate(book, out);
        match (self, &answer) {
            (Fake::MakerForTaken, Err(Refusal { number: 10, place })) => return Err(Refusal::new(13, place)),
            (Fake::TakenForMaker, Err(Refusal { number: 13, place })) => return Err(Refusal::new(10, place)),
            (Fake::WordsPastTheOutput, Ok(length)) if out.len() > *length => out[*length] ^= 1,
            (Fake::WordsAnswer, Ok(length)) => return Ok(length + 1),
            _ => (),
        }
        answer
    }

    fn rehearse(&self, book: &[u32], schedule: &[u32], out: &mut [u32]) -> Answer {
        rehearse::rehearse(book, schedule, out)
    }

    fn translate_bytes(&self, book: &[u8], out: &mut [u8]) -> u64 {
        let book = match self {
            Fake::OddBookLetPass => whole(book),
            Fake::OneWordTooFew => at_most(book, host::book::LONGEST),
            _ => book,
        };
        self.spoil(bytes::translate(book, out), out)
    }

    fn rehearse_bytes(&self, book: &[u8], schedule: &[u8], out: &mut [u8]) -> u64 {
        let schedule = match self {
            Fake::OddScheduleLetPass => whole(schedule),
            Fake::OneMoveTooFew => at_most(schedule, rehearse::MOST_MOVES),
            Fake::NoRehearsal => &[],
            _ => schedule,
        };
        let answer = match (self, bytes::listing(book)) {
            (Fake::BookBeforeOddSchedule, Err(refusal)) => Err(refusal),
            _ => bytes::rehearse(book, schedule, out),
        };
        self.spoil(answer, out)
    }
}

/// What is told of a fake: whether all is the same, and the lines.
fn told(fake: Fake, trials: &Trials, keep: &Folder) -> (bool, String) {
    let mut out = Vec::new();
    let same = routes::over(&fake, trials, keep.at(), &mut out).expect("it ends");
    (same, String::from_utf8(out).expect("text"))
}

#[test]
fn right_and_wrong_ones() {
    let keep = Folder::new("routes");
    let random = Trials::new(&[], 3, 800).expect("random ones");
    let (same, text) = told(Fake::Right, &random, &keep);
    assert!(same, "{text}");
    assert!(text.starts_with("seed 3, 800 random books and schedules, 0 fixed ones\n"));
    assert!(text.ends_with(" calls on each route, 0 differences\n"), "{text}");
    for number in (1..=10).chain([12, 13]) {
        assert!(text.contains(&format!("refused {number}: ")), "{text}");
    }
    let met = [
        "odd book",
        "odd schedule",
        "both odd",
        "longer than any book",
        "4,097 moves",
        "refused 11",
    ];
    for met in met
        .iter()
        .chain(&["exact", "one short", "no room", "3 spare", "accepted"])
        .chain(&["the book's summary", "another summary", "odd summary"])
        .chain(&["ours", "shifted", "reversed by run", "sparse", "runs in any order"])
        .chain(&[
            "overlapping runs",
            "a run of none renamed",
            "a run past the largest number",
        ])
        .chain(&["a run up to the largest number", "a word changed", "cut", "lengthened"])
        .chain(&["for no party", "for a refused book", "odd listing"])
    {
        assert!(text.contains(&format!("{met}: ")), "{met}: {text}");
    }
    let line = |function: &str| text.lines().find(|line| line.starts_with(function)).expect("a line");
    for number in (1..=10).chain([12, 13]) {
        assert!(
            line("summary: ").contains(&format!("refused {number}: ")),
            "{number}: {text}"
        );
    }
    for kind in ["yes", "no", "refused 1", "refused 20", "refused 21"] {
        assert!(line("ask: ").contains(&format!("{kind}: ")), "{kind}: {text}");
    }
    for kind in ["same", "differs", "refused 22"] {
        assert!(line("judge: ").contains(&format!("{kind}: ")), "{kind}: {text}");
    }
    for number in (1..=10).chain([13]) {
        assert!(
            line("judge: ").contains(&format!("refused {number}: ")),
            "{number}: {text}"
        );
    }
    assert!(keep.names().is_empty());

    let few = Trials::new(&[], 3, 120).expect("random ones");
    for fake in [
        Fake::HighByteFirst,
        Fake::SpareByteWritten,
        Fake::RoomInBytes,
        Fake::RefusalWrites,
        Fake::WrittenPastTheOutput,
        Fake::HighBitsOfTheAnswer,
        Fake::OddBookLetPass,
        Fake::OddScheduleLetPass,
        Fake::BookBeforeOddSchedule,
        Fake::OneMoveTooFew,
        Fake::NoRehearsal,
        Fake::WordsPastTheOutput,
        Fake::WordsAnswer,
        Fake::MarksIgnored,
        Fake::MakerForTaken,
        Fake::TakenForMaker,
        Fake::MakerWithoutRow,
        Fake::NeverIsTheLastStep,
        Fake::BuildableForHeld,
        Fake::SummaryBytesShort,
        Fake::AtMostTheStep,
        Fake::StrideOfParties,
        Fake::RangeBeforeLength,
        Fake::LengthInBytes,
        Fake::LastNumberFirst,
        Fake::OddSummaryLetPass,
        Fake::NoOnBytes,
        Fake::AllTheSame,
        Fake::NoRenaming,
        Fake::TheLongerLength,
        Fake::PartyBeforeTheBook,
        Fake::PartyOfBytes,
        Fake::SmallPartyLetPass,
        Fake::PlaceInBytes,
        Fake::SameIsNothing,
        Fake::OddListingLetPass,
        Fake::BookBeforeOddListing,
    ] {
        let (same, text) = told(fake, &few, &keep);
        assert!(!same && text.contains("  kept: "), "{fake:?}: {text}");
    }
    // What only few questions show.
    for fake in [Fake::NarrowProduct, Fake::StepMayBeL] {
        let (same, text) = told(fake, &random, &keep);
        assert!(!same && text.contains(", ask "), "{fake:?}: {text}");
    }
    // What was kept are the bytes of a trial.
    let names = keep.names();
    assert!(names
        .iter()
        .any(|name| name.starts_with("routes-3-random-") && name.ends_with(".book")));
    assert!(names.iter().any(|name| name.ends_with(".schedule")));
    assert!(names.iter().any(|name| name.ends_with(".summary")));
    assert!(names.iter().any(|name| name.ends_with(".listing")));
}

/// What is told of a fake over example 1 in a file, and what is kept.
fn on_example_1(fake: Fake, name: &str) -> (bool, String, Folder) {
    let keep = Folder::new(name);
    let books = Folder::new(&format!("{name}-books"));
    books.file("1.book", words::to_bytes(&EXAMPLE_1));
    let trials = Trials::new(&[books.at().to_path_buf()], 1, 0).expect("the book");
    let (same, text) = told(fake, &trials, &keep);
    (same, text, keep)
}

/// What is told of a question, and the summary that it was about.
#[test]
fn a_question_is_told() {
    let (same, text, keep) = on_example_1(Fake::NoOnBytes, "routes-question");
    assert!(
        !same && text.contains("on bytes the answer is no, the host's is yes"),
        "{text}"
    );
    let asked = text
        .lines()
        .find(|line| line.starts_with("1, schedule 0, ask "))
        .expect("a line");
    assert!(asked.contains(" bytes ("), "{asked}");
    let kept = keep.read("routes-1-1--schedule-0.summary");
    assert!(asked.contains(&format!(" of {} bytes", kept.len())), "{asked}");
    assert_eq!(keep.read("routes-1-1--schedule-0.book"), words::to_bytes(&EXAMPLE_1));
}

/// What is told of a listing, and the listing itself.
#[test]
fn a_listing_is_told() {
    let (same, text, keep) = on_example_1(Fake::SameIsNothing, "routes-listing");
    assert!(
        !same && text.contains("on bytes the answer is differs 0, the host's is same"),
        "{text}"
    );
    let kept = keep.read("routes-1-1--schedule-0.listing");
    let judged = format!("1, schedule 0, judge {} bytes for party ", kept.len());
    assert!(text.lines().any(|line| line.starts_with(&judged)), "{text}");
}

/// Of a small book in a file each of its 47 words is changed, and ours is judged for both parties.
#[test]
fn every_word_of_a_small_book() {
    let (same, text, _) = on_example_1(Fake::Right, "routes-words");
    let met = |what: &str| -> usize {
        let count = text.split(&format!("{what}: ")).nth(1).expect(what);
        count.split([',', '\n']).next().expect(what).parse().expect(what)
    };
    assert!(same && met("a word changed") >= 47 && met(", ours") >= 2, "{text}");
}

#[test]
fn books_in_files() {
    let keep = Folder::new("routes-files");
    let books = Folder::new("routes-books");
    for name in ["example-1.book", "full-longest.book", "refusal-1.book"] {
        let book = std::fs::read(top().join("books").join(name)).expect(name);
        books.file(name, book);
    }
    let trials = Trials::new(&[books.at().to_path_buf()], 1, 0).expect("the books");
    let (same, text) = told(Fake::Right, &trials, &keep);
    assert!(
        same && text.starts_with("seed 1, 0 random books and schedules, 51 fixed ones\n"),
        "{text}"
    );
    // Only the longest of books shows that one word more has to be read.
    let (same, text) = told(Fake::OneWordTooFew, &trials, &keep);
    assert!(!same && text.contains("full-longest, 4 bytes more"), "{text}");
}

#[test]
fn no_library() {
    let folder = Folder::new("routes-none");
    let missing = folder.path("missing.so");
    assert!(complains(&["routes", &missing, "1", "1"]).contains("missing.so"));
    let text = folder.file("text.so", "no library");
    assert!(complains(&["routes", &text, "1", "1"]).contains("text.so"));
    complains(&["routes", &missing, "one", "1"]);
    complains(&["routes", &missing, "1"]);
}

/// A library of something else: the functions that it doesn't have are named, and what makes one that has them.
#[cfg(target_os = "linux")]
#[test]
fn another_library() {
    let maps = std::fs::read_to_string("/proc/self/maps").expect("what is loaded");
    let path = maps.split_whitespace().find(|word| word.contains("/libc.so"));
    let told = complains(&["routes", path.expect("the C library"), "1", "1"]);
    for name in [
        "translator::translate",
        "rehearsal::rehearse",
        "nghiralum_translate",
        "nghiralum_rehearse",
        "summary::write_summary",
        "summary::ask",
        "nghiralum_summary",
        "nghiralum_ask",
        "judge::judge",
        "nghiralum_judge",
    ] {
        assert!(told.contains(&format!("no {name}")), "{told}");
    }
    assert!(told.contains("host/library shared"), "{told}");
}
