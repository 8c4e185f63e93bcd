//! Requests: calls of the product's public functions as a stream of words, and each answer as one line, as the program
//! `calls` takes and prints them (docs/CALLS.md). Streams are written from files or at random, and answered by this
//! implementation.

mod made;

pub use made::{random, Calls};

use crate::book::{self, Refusal};
use crate::bytes;
use crate::files;
use crate::judge;
use crate::rehearse;
use crate::summary;
use crate::translate;
use crate::types;
use crate::words;
use std::io::{Read, Write};

/// A slice has at most so many bytes, so 16,384 words.
pub const MOST_BYTES: usize = 65_536;
/// The program lends room for the words of two slices.
const ROOM: usize = MOST_BYTES / 2;
/// What is printed where a function accepts and has no output.
const ACCEPTED: &str = "accepted";

/// A public function of the product. Its number stays its own: what comes later has a number behind.
pub struct Function {
    pub number: u32,
    pub name: &'static str,
    /// The bytes of an item of its slices: four where they are of words, one where they are of bytes.
    item: usize,
    /// What it is given, in its own order.
    parameters: &'static [Parameter],
    /// What is printed of a call, or its refusal.
    call: fn(&[Vec<u8>]) -> Result<String, Refusal>,
}

/// A slice, or one number, which is a word wherever slices are of bytes too.
#[derive(Clone, Copy, PartialEq, Eq)]
enum Parameter {
    Book,
    Schedule,
    Summary,
    Listing,
    Asked,
    Derivation,
    Lent,
    Number,
}

use Parameter::{Asked, Book, Derivation, Lent, Listing, Number, Schedule, Summary};

pub const FUNCTIONS: [Function; 16] = [
    Function {
        number: 1,
        name: "read",
        item: 4,
        parameters: &[Book],
        call: |given| {
            book::read(&words_of(&given[0]))?;
            Ok(ACCEPTED.to_string())
        },
    },
    Function {
        number: 2,
        name: "accept",
        item: 4,
        parameters: &[Book],
        call: |given| {
            translate::programs(&book::read(&words_of(&given[0]))?)?;
            Ok(ACCEPTED.to_string())
        },
    },
    Function {
        number: 3,
        name: "translate",
        item: 4,
        parameters: &[Book, Lent],
        call: |given| {
            let mut lent = words_of(&given[1]);
            let length = translate::translate(&words_of(&given[0]), &mut lent)?;
            Ok(words::line(&lent[..length]))
        },
    },
    Function {
        number: 4,
        name: "rehearse",
        item: 4,
        parameters: &[Book, Schedule, Lent],
        call: |given| {
            let mut lent = words_of(&given[2]);
            let length = rehearse::rehearse(&words_of(&given[0]), &words_of(&given[1]), &mut lent)?;
            Ok(words::line(&lent[..length]))
        },
    },
    Function {
        number: 5,
        name: "nghiralum_translate",
        item: 1,
        parameters: &[Book, Lent],
        call: |given| {
            let mut lent = given[1].clone();
            let length = bytes::translate(&given[0], &mut lent)?;
            Ok(words::line(&words_of(&lent[..4 * length])))
        },
    },
    Function {
        number: 6,
        name: "nghiralum_rehearse",
        item: 1,
        parameters: &[Book, Schedule, Lent],
        call: |given| {
            let mut lent = given[2].clone();
            let length = bytes::rehearse(&given[0], &given[1], &mut lent)?;
            Ok(words::line(&words_of(&lent[..4 * length])))
        },
    },
    Function {
        number: 7,
        name: "write_summary",
        item: 4,
        parameters: &[Book, Lent],
        call: |given| {
            let mut lent = words_of(&given[1]);
            let length = summary::write(&words_of(&given[0]), &mut lent)?;
            Ok(words::line(&lent[..length]))
        },
    },
    Function {
        number: 8,
        name: "ask",
        item: 4,
        parameters: &[Summary, Number, Number, Number],
        call: |given| {
            let [party, row, step] = question_of(given);
            let yes = summary::ask(&words_of(&given[0]), party, row, step)?;
            Ok(said(yes).to_string())
        },
    },
    Function {
        number: 9,
        name: "nghiralum_summary",
        item: 1,
        parameters: &[Book, Lent],
        call: |given| {
            let mut lent = given[1].clone();
            let length = bytes::write_summary(&given[0], &mut lent)?;
            Ok(words::line(&words_of(&lent[..4 * length])))
        },
    },
    Function {
        number: 10,
        name: "nghiralum_ask",
        item: 1,
        parameters: &[Summary, Number, Number, Number],
        call: |given| {
            let [party, row, step] = question_of(given);
            let yes = bytes::ask(&given[0], party, row, step)?;
            Ok(said(yes).to_string())
        },
    },
    Function {
        number: 11,
        name: "judge",
        item: 4,
        parameters: &[Book, Listing, Number],
        call: |given| {
            let [book, listing] = [0, 1].map(|at| words_of(&given[at]));
            let verdict = judge::judge(&book, number_of(&given[2]), &listing)?;
            Ok(verdict.to_string())
        },
    },
    Function {
        number: 12,
        name: "nghiralum_judge",
        item: 1,
        parameters: &[Book, Listing, Number],
        call: |given| {
            let verdict = bytes::judge(&given[0], number_of(&given[2]), &given[1])?;
            Ok(verdict.to_string())
        },
    },
    Function {
        number: 13,
        name: "check",
        item: 4,
        parameters: &[Asked, Derivation],
        call: |given| {
            let [asked, derivation] = [0, 1].map(|at| words_of(&given[at]));
            Ok(types::verdict(&asked, &derivation).to_string())
        },
    },
    Function {
        number: 14,
        name: "nghiralum_check",
        item: 1,
        parameters: &[Asked, Derivation],
        call: |given| {
            let verdict = bytes::check(&given[0], &given[1], &mut [0; ROOM])?;
            Ok(verdict.to_string())
        },
    },
    Function {
        number: 15,
        name: "keeps_apart",
        item: 4,
        parameters: &[Asked],
        call: |given| Ok(said(types::keeps_apart(&words_of(&given[0]))).to_string()),
    },
    Function {
        number: 16,
        name: "nghiralum_apart",
        item: 1,
        parameters: &[Asked],
        call: |given| {
            let apart = bytes::keeps_apart(&given[0], &mut [0; ROOM])?;
            Ok(said(apart).to_string())
        },
    },
];

/// The words of a slice that has whole words.
fn words_of(slice: &[u8]) -> Vec<u32> {
    words::of_bytes(slice).unwrap_or_default()
}

/// The number of its word's bytes.
fn number_of(given: &[u8]) -> u32 {
    words_of(given).first().copied().unwrap_or_default()
}

/// The numbers of a party, a row and a step, behind a summary.
fn question_of(given: &[Vec<u8>]) -> [u32; 3] {
    [1, 2, 3].map(|at| number_of(&given[at]))
}

/// What is printed of an answered question.
fn said(yes: bool) -> &'static str {
    if yes {
        "yes"
    } else {
        "no"
    }
}

/// A call: the function, and what it is given: the bytes of each slice, and the four of each number.
pub struct Request {
    function: &'static Function,
    given: Vec<Vec<u8>>,
}

impl Request {
    /// Of a function, by its name or its number, and what it is given: of each slice `=` and its items, or a file's name;
    /// of a number its figures.
    pub fn of(function: &str, given: &[&str]) -> Result<Request, String> {
        let known = |own: &&Function| own.name == function || own.number.to_string() == function;
        let function = FUNCTIONS.iter().find(known).ok_or_else(|| {
            let names: Vec<&str> = FUNCTIONS.iter().map(|own| own.name).collect();
            format!("there is no function `{function}`, but {}", names.join(", "))
        })?;
        if given.len() != function.parameters.len() {
            return Err(format!(
                "`{}` has {}, not {}",
                function.name,
                function.told(),
                given.len()
            ));
        }
        let given = function
            .parameters
            .iter()
            .zip(given)
            .map(|(parameter, asked)| match parameter {
                Number => Ok(words::to_bytes(&[words::number(asked)?])),
                _ => function.slice(asked),
            });
        Ok(Request {
            function,
            given: given.collect::<Result<_, _>>()?,
        })
    }

    /// The request as it stands in a stream: the function's number, and of each slice the count of its items and these,
    /// filled up with zeros to whole words; a number is a word.
    pub fn bytes(&self) -> Vec<u8> {
        let mut bytes = words::to_bytes(&[self.function.number]);
        for (parameter, given) in self.function.parameters.iter().zip(&self.given) {
            if *parameter != Number {
                bytes.extend(words::to_bytes(&[(given.len() / self.function.item) as u32]));
            }
            bytes.extend(given);
            bytes.resize(bytes.len().next_multiple_of(4), 0);
        }
        bytes
    }

    /// The next request of a stream, nothing at its end, or what is wrong with it.
    pub fn next(stream: &mut impl Read) -> Result<Option<Request>, String> {
        let head = some(stream, 4)?;
        if head.is_empty() {
            return Ok(None);
        }
        let number = word(&head)?;
        let function = FUNCTIONS.iter().find(|own| own.number == number);
        let function = function.ok_or("there is no function of this number")?;
        let given = function.parameters.iter().map(|parameter| match parameter {
            Number => exactly(stream, 4),
            _ => next_slice(stream, function.item),
        });
        let given = given.collect::<Result<_, _>>()?;
        Ok(Some(Request { function, given }))
    }

    /// The line of its answer, without the line's end.
    pub fn answer(&self) -> String {
        (self.function.call)(&self.given).unwrap_or_else(|refusal| refusal.to_string())
    }
}

impl Function {
    /// How many slices and numbers it is given.
    fn told(&self) -> String {
        let numbers = self.parameters.iter().filter(|own| **own == Number).count();
        let slices = self.parameters.len() - numbers;
        match numbers {
            0 => format!("{slices} slices"),
            _ => format!("{slices} slices and {numbers} numbers"),
        }
    }

    /// A slice as it is asked for: `=` and its items, or a file's name.
    fn slice(&self, asked: &str) -> Result<Vec<u8>, String> {
        let Some(items) = asked.strip_prefix('=') else {
            let bytes = files::bytes(asked.as_ref())?;
            return match bytes.len() % self.item {
                0 => Ok(bytes),
                _ => Err(format!("{asked}: {} bytes are no whole words", bytes.len())),
            };
        };
        let mut slice = Vec::new();
        for item in items.split(',').filter(|item| !item.is_empty()) {
            let (times, value) = item.split_once('x').unwrap_or(("1", item));
            match (times.parse(), value.parse::<u32>()) {
                (Ok(times @ 0..=MOST_TIMES), Ok(value)) if self.item == 4 || value < 256 => {
                    let value = &value.to_le_bytes()[..self.item];
                    slice.extend(value.repeat(times));
                }
                _ => return Err(format!("`{item}` is neither an item nor COUNTxITEM")),
            }
        }
        Ok(slice)
    }
}

/// So many items may be asked for at once: more than a slice may have, so that this can be tried.
const MOST_TIMES: usize = 1 << 20;

const ENDS: &str = "standard input ends inside a request";

/// The next bytes of a stream, so many or as many as there are.
fn some(stream: &mut impl Read, most: usize) -> Result<Vec<u8>, String> {
    files::read(stream, most).map_err(|error| format!("standard input: {error}"))
}

/// The next bytes of a stream, so many and no fewer.
fn exactly(stream: &mut impl Read, count: usize) -> Result<Vec<u8>, String> {
    let bytes = some(stream, count)?;
    match bytes.len() == count {
        true => Ok(bytes),
        false => Err(ENDS.to_string()),
    }
}

/// The next slice of a stream, of items of so many bytes: their count, and then they.
fn next_slice(stream: &mut impl Read, item: usize) -> Result<Vec<u8>, String> {
    let count = word(&some(stream, 4)?)? as usize;
    if count > MOST_BYTES / item {
        return Err(format!("a slice has more than {MOST_BYTES} bytes"));
    }
    let length = count * item;
    let mut slice = exactly(stream, length.next_multiple_of(4))?;
    slice.truncate(length);
    Ok(slice)
}

/// The word of four bytes.
fn word(bytes: &[u8]) -> Result<u32, String> {
    let four = bytes.try_into().map_err(|_| ENDS)?;
    Ok(u32::from_le_bytes(four))
}

/// Answers the requests of a stream, a line each; the first that can't be read ends it, with its place in the stream.
pub fn answer(stream: &mut impl Read, out: &mut dyn Write) -> Result<usize, String> {
    let mut answered = 0;
    loop {
        match Request::next(stream) {
            Ok(Some(request)) => {
                let written = writeln!(out, "{}", request.answer());
                written.map_err(|error| format!("standard output: {error}"))?;
                answered += 1;
            }
            Ok(None) => return Ok(answered),
            Err(wrong) => return Err(format!("request {}: {wrong}", answered + 1)),
        }
    }
}
