//! `nghi judge`: whether another tool's listing of a party is ours but for the names of placeholders, by the proved judge;
//! and if not, where it differs and why.

use crate::arguments::{Call, Command, Takes, JSON};
use crate::commands::Output;
use crate::failure::{Failure, PLAYABLE, REFUSED};
use crate::input::Input;
use crate::json::{answer, object, Json};
use crate::listing::{part_words, Event, Image, Program};
use crate::playable::{self, Playable};
use crate::subject::{to_bytes, to_words};
use crate::told::{Names, Told};
use nghiralum::Verdict;

pub static COMMAND: Command = Command {
    name: "judge",
    takes: "FILE PARTY LISTING [--json], or --ours FILE PARTY",
    does: "whether another tool's listing of a party is ours but for the names of placeholders",
    places: (2, 3),
    options: &[("--ours", Takes::Nothing("our own listing of the party")), JSON],
};

/// An event is shown up to so many letters: an END may have a hundred thousand rows.
const SHOWN: usize = 240;

pub fn run(call: &Call) -> Result<Output, Failure> {
    let asked = if call.has("--ours") { 2 } else { 3 };
    if call.places.len() != asked {
        return Err(Failure::command_line(
            "a file, a party and the listing to be judged are asked for; with --ours a file and a party",
        ));
    }
    let playable = match playable::open(call)? {
        Ok(playable) => playable,
        Err(output) => return Ok(output),
    };
    let party = playable.subject.meant(&call.places[1].to_string_lossy())?;
    let ours = Ours::of(&playable, party)?;
    match call.places.get(2) {
        None => Ok(ours.printed(call.has("--json"))),
        Some(listing) => ours.judged(&words(&Input::read(listing)?)?, call.has("--json")),
    }
}

/// The words of a listing: of text, if it is text, in decimal with remarks, or else of bytes, four each. What is wrong in a
/// text is told with its place.
fn words(input: &Input) -> Result<Vec<u32>, Failure> {
    match std::str::from_utf8(&input.bytes) {
        Ok(text) if !text.contains('\0') => of_text(&input.name, text),
        _ if input.bytes.len().is_multiple_of(4) => Ok(to_words(&input.bytes)),
        _ => Err(Failure::file(format!(
            "{}: its {} bytes are no listing, which has four bytes a word",
            input.name,
            input.bytes.len()
        ))),
    }
}

fn of_text(name: &str, text: &str) -> Result<Vec<u32>, Failure> {
    let mut words = Vec::new();
    for (line, number) in narration::lines(text).into_iter().zip(1..) {
        let line = line.split('#').next().unwrap_or("");
        for piece in line.split_whitespace() {
            let figures = piece.bytes().all(|byte| byte.is_ascii_digit());
            let word = piece.parse().ok().filter(|_| figures);
            words.push(word.ok_or_else(|| {
                // The piece is a part of the line, so the distance of the two is its place there.
                let before = piece.as_ptr() as usize - line.as_ptr() as usize;
                let column = line[..before].chars().count() + 1;
                let most = u32::MAX;
                Failure::mistake(format!(
                    "{name}:{number}:{column}: expected a word from 0 to {most}, found `{piece}`"
                ))
            })?);
        }
    }
    Ok(words)
}

/// What a word of a listing is, for a renaming of placeholders.
#[derive(Clone, Copy, PartialEq, Eq, Debug)]
enum Slot {
    /// No placeholder's number: it has to be the same.
    Plain(u32),
    Use(u32),
    /// The first of so many new ones.
    Run {
        first: u32,
        n: u32,
    },
}

impl Slot {
    fn word(self) -> u32 {
        match self {
            Slot::Plain(word) | Slot::Use(word) | Slot::Run { first: word, .. } => word,
        }
    }
}

/// The words of a program, each with what it is.
fn slots(program: &Program) -> Vec<Vec<Slot>> {
    let of_event = |event: &Event| {
        let mut slots = Vec::new();
        let plain = |words: &[u32], slots: &mut Vec<Slot>| slots.extend(words.iter().map(|word| Slot::Plain(*word)));
        match event {
            Event::New { row } => plain(&[1, *row], &mut slots),
            Event::Send { step, images } => {
                plain(&[2, *step, images.len() as u32], &mut slots);
                images.iter().for_each(|image| put_image(image, &mut slots));
            }
            Event::Receive { step, first, n } => {
                plain(&[3, *step], &mut slots);
                slots.extend([Slot::Run { first: *first, n: *n }, Slot::Plain(*n)]);
            }
            Event::Check { placeholder, image } => {
                slots.extend([Slot::Plain(4), Slot::Use(*placeholder)]);
                put_image(image, &mut slots);
            }
            Event::Open {
                placeholder,
                first,
                n,
                key,
            } => {
                let run = Slot::Run { first: *first, n: *n };
                slots.extend([Slot::Plain(5), Slot::Use(*placeholder), run, Slot::Plain(*n)]);
                put_image(key, &mut slots);
            }
            Event::End { stored } => {
                plain(&[6, stored.len() as u32], &mut slots);
                for own in stored {
                    slots.extend([Slot::Plain(own.row), Slot::Use(own.placeholder), Slot::Plain(own.step)]);
                }
            }
        }
        slots
    };
    program.iter().map(of_event).collect()
}

fn put_image(image: &Image, slots: &mut Vec<Slot>) {
    let (words, parts): (&[u32], Vec<&Image>) = match image {
        Image::Itself(row) => (&[0, *row], Vec::new()),
        Image::Placeholder(number) => {
            slots.extend([Slot::Plain(1), Slot::Use(*number)]);
            return;
        }
        Image::Operation(tag, arguments) => (&[2, *tag, arguments.len() as u32], arguments.iter().collect()),
        Image::Cipher(key, contents) => {
            let parts = std::iter::once(&**key).chain(contents).collect();
            (&[3, contents.len() as u32], parts)
        }
        Image::Public(part) => (&[4], vec![&**part]),
        Image::Private(part) => (&[5], vec![&**part]),
    };
    slots.extend(words.iter().map(|word| Slot::Plain(*word)));
    parts.into_iter().for_each(|part| put_image(part, slots));
}

/// The words that are explained are the very ones of the program.
fn spelt(events: &[Vec<Slot>], program: &Program) -> Result<(), Failure> {
    let words: Vec<u32> = events.iter().flatten().map(|slot| slot.word()).collect();
    match words == part_words(program) {
        true => Ok(()),
        false => Err(Failure::guard(
            "the words of a program are not what they are told to be",
        )),
    }
}

/// Our part of the listing, for one party.
struct Ours<'p> {
    playable: &'p Playable,
    party: u32,
    names: Names<'p>,
    told: Vec<Told>,
    /// The words of each event.
    events: Vec<Vec<Slot>>,
}

/// Where and why a listing differs from ours.
struct Difference {
    place: usize,
    /// The event of ours and the word in it, unless ours has ended.
    at: Option<(usize, usize)>,
    ours: Option<Slot>,
    theirs: Option<u32>,
    why: String,
}

impl<'p> Ours<'p> {
    fn of(playable: &'p Playable, party: u32) -> Result<Ours<'p>, Failure> {
        let program = &playable.answers.programs[party as usize];
        let names = Names::of(&playable.subject);
        let events = slots(program);
        spelt(&events, program)?;
        Ok(Ours {
            told: names.program(program)?,
            playable,
            party,
            names,
            events,
        })
    }

    fn name(&self) -> &str {
        self.playable.subject.party(self.party)
    }

    /// Our own words in decimal, a line an event, with the event behind it as a remark.
    fn printed(&self, json: bool) -> Output {
        let words = |slots: &Vec<Slot>| -> Vec<String> { slots.iter().map(|slot| slot.word().to_string()).collect() };
        let text = match json {
            false => {
                let line = |(slots, told): (&Vec<Slot>, &Told)| {
                    format!("{}  # {} {}\n", words(slots).join(" "), told.kind, told.text)
                };
                self.events.iter().zip(&self.told).map(line).collect()
            }
            true => {
                let words: Vec<u32> = self.events.iter().flatten().map(|slot| slot.word()).collect();
                let answer = answer(
                    "judge",
                    [
                        ("file", self.playable.subject.name.as_str().into()),
                        ("party", self.name().into()),
                        ("ours", words.into()),
                    ],
                );
                format!("{answer}\n")
            }
        };
        Output::answer(text, PLAYABLE)
    }

    /// The verdict is the proved judge's.
    fn judged(&self, theirs: &[u32], json: bool) -> Result<Output, Failure> {
        let verdict = nghiralum::judge(&self.playable.subject.bytes, self.party, &to_bytes(theirs));
        let verdict = verdict.map_err(|refusal| Failure::guard(format!("a listing and no verdict: {refusal}")))?;
        let difference = match verdict {
            Verdict::Same => None,
            Verdict::Differs(place) => Some(self.difference(place, theirs)?),
        };
        let status = if difference.is_none() { PLAYABLE } else { REFUSED };
        let text = match (json, difference) {
            (true, difference) => format!("{}\n", self.json(theirs, difference)),
            (false, Some(difference)) => self.text(&difference),
            (false, None) => {
                let words = theirs.len();
                format!("same: a one-to-one renaming of its placeholders turns the listing, {words} words, into ours\n")
            }
        };
        Ok(Output::answer(text, status))
    }

    fn difference(&self, place: usize, theirs: &[u32]) -> Result<Difference, Failure> {
        let (mut at, mut before) = (None, 0);
        for (event, slots) in self.events.iter().enumerate() {
            if (before..before + slots.len()).contains(&place) {
                at = Some((event, place - before));
            }
            before += slots.len();
        }
        let ours = at.map(|(event, word)| self.events[event][word]);
        let word = theirs.get(place).copied();
        let why = match (ours, word) {
            (Some(slot), Some(word)) => self.why(place, slot, word, theirs),
            (Some(_), None) => Some(String::from("theirs ends here")),
            (None, Some(_)) if place == before => Some(String::from("theirs goes on behind our end")),
            (None, _) => None,
        };
        let why = why.ok_or_else(|| Failure::guard("the judge names a word that differs in nothing"))?;
        Ok(Difference {
            place,
            at,
            ours,
            theirs: word,
            why,
        })
    }

    /// Why no renaming fits, where theirs has this word; nothing if one would.
    fn why(&self, place: usize, ours: Slot, word: u32, theirs: &[u32]) -> Option<String> {
        let called = |number| self.names.placeholder(number);
        // The runs before it: the first number of ours, the first of theirs, how many, and where.
        let runs = || {
            let slots = self.events.iter().flatten().enumerate().take(place);
            slots.filter_map(|(at, slot)| match slot {
                Slot::Run { first, n } => Some((*first, theirs[at], *n, at)),
                _ => None,
            })
        };
        match ours {
            Slot::Plain(own) => {
                (own != word).then(|| String::from("this word is no placeholder's, so no renaming changes it"))
            }
            Slot::Use(number) => {
                let (first, their, _, since) =
                    runs().find(|(first, _, n, _)| number.checked_sub(*first).is_some_and(|off| off < *n))?;
                let name = their.checked_add(number - first)?;
                (name != word).then(|| format!("{} is called {name} by them since word {since}", called(number)))
            }
            Slot::Run { first, n: 0 } => {
                (first != word).then(|| String::from("where none is new, the number must be ours"))
            }
            Slot::Run { n, .. } => {
                let Some(last) = word.checked_add(n - 1) else {
                    let most = u32::MAX;
                    return Some(format!("{n} numbers from {word} on go past the largest word, {most}"));
                };
                let (first, their, _, since) = runs()
                    .filter(|(_, _, n, _)| *n > 0)
                    .find(|(_, their, n, _)| *their <= last && word - their.min(&word) < *n)?;
                let number = their.max(word);
                let own = called(first + (number - their));
                Some(format!(
                    "number {number} of the run is taken: {own} is called so by them since word {since}"
                ))
            }
        }
    }

    /// A word of ours, and what it is.
    fn word(&self, slot: Slot) -> String {
        let called = |number| self.names.placeholder(number);
        match slot {
            Slot::Plain(word) => word.to_string(),
            Slot::Use(number) => format!("{number}, placeholder {}", called(number)),
            Slot::Run { first, n: 0 } => format!("{first}, the next placeholder, and none is new"),
            Slot::Run { first, n: 1 } => format!("{first}, the new placeholder {}", called(first)),
            Slot::Run { first, n } => {
                let (from, to) = (called(first), called(first + n - 1));
                format!("{first}, the first of the new placeholders {from} to {to}")
            }
        }
    }

    fn text(&self, difference: &Difference) -> String {
        let subject = &self.playable.subject;
        let nothing = || String::from("nothing");
        let name = self.name();
        let mut text = format!("differs at word {}, ", difference.place);
        match difference.at {
            Some((event, word)) => {
                let told = &self.told[event];
                let step = told
                    .step
                    .map_or_else(String::new, |step| format!(", {}", subject.step(step)));
                let whole = format!("{} {}", told.kind, told.text);
                let mut shown: String = whole.chars().take(SHOWN).collect();
                if shown.len() < whole.len() {
                    shown.push_str(" ..");
                }
                text.push_str(&format!("word {word} of event {event} of {name}'s program{step}\n"));
                text.push_str(&format!("  event   {shown}\n"));
            }
            None => text.push_str(&format!("behind the end of {name}'s program\n")),
        }
        let ours = difference.ours.map_or_else(nothing, |slot| self.word(slot));
        let theirs = difference.theirs.map_or_else(nothing, |word| word.to_string());
        text.push_str(&format!(
            "  ours    {ours}\n  theirs  {theirs}\n  why     {}\n",
            difference.why
        ));
        text
    }

    fn json(&self, theirs: &[u32], difference: Option<Difference>) -> Json {
        let subject = &self.playable.subject;
        let same = difference.is_none();
        let differs = difference.map(|difference| {
            let event = difference.at.map(|(event, word)| {
                let told = &self.told[event];
                object([
                    ("number", event.into()),
                    ("word", word.into()),
                    ("kind", told.kind.into()),
                    ("step", told.step.into()),
                    ("line", told.step.and_then(|step| subject.line(step)).into()),
                    ("text", told.text.as_str().into()),
                ])
            });
            object([
                ("word", difference.place.into()),
                ("event", event.into()),
                ("ours", difference.ours.map(Slot::word).into()),
                ("theirs", difference.theirs.into()),
                ("why", difference.why.into()),
            ])
        });
        answer(
            "judge",
            [
                ("file", subject.name.as_str().into()),
                ("party", self.name().into()),
                ("words", theirs.len().into()),
                ("same", same.into()),
                ("differs", differs.into()),
            ],
        )
    }
}

#[cfg(test)]
mod tests {
    use super::*;
    use crate::proved::Answers;
    use crate::subject::{open, Opened};

    fn playable(name: &str) -> Playable {
        let input = Input::read(format!("../books/{name}").as_ref()).unwrap();
        let Opened::Subject(subject) = open(&input).unwrap() else {
            panic!("{name} is no subject")
        };
        let answers = Answers::of(&subject).unwrap().unwrap();
        Playable {
            subject: *subject,
            answers,
        }
    }

    /// Every word of a listing changed in some ways, and every shorter one: there is always a reason, at the word that the
    /// proved judge names.
    #[test]
    fn a_difference_has_a_reason() {
        let mut reasons = [0; 6];
        for name in [
            "example-2.narration",
            "kerberos.narration",
            "trial-no-messages.book",
            "tag-lmap.book",
        ] {
            let playable = playable(name);
            for party in 0..playable.subject.book.parties.len() as u32 {
                let ours = Ours::of(&playable, party).unwrap();
                let words = part_words(&playable.answers.programs[party as usize]);
                assert_eq!(ours.judged(&words, false).unwrap().status, PLAYABLE);
                for at in 0..words.len() {
                    let cut = ours.judged(&words[..at], false).unwrap();
                    assert!(cut.text.contains("why     theirs ends here"), "{name}: {}", cut.text);
                    for other in [words[at].wrapping_sub(1), words[at] + 1, 0, 70, u32::MAX, u32::MAX - 1] {
                        let mut theirs = words.clone();
                        theirs[at] = other;
                        let told = ours.judged(&theirs, false).unwrap().text;
                        let told_of = [
                            "no placeholder's",
                            "is taken",
                            "is called",
                            "past the largest",
                            "none is new",
                            "same",
                        ];
                        let which = told_of.iter().position(|reason| told.contains(reason));
                        reasons[which.expect(&told)] += 1;
                    }
                }
            }
        }
        assert!(reasons.iter().all(|count| *count > 0), "{reasons:?}");
    }

    /// One altered word of what is explained, and a difference where there is none, break the guard.
    #[test]
    fn an_altered_verdict_is_told() {
        let playable = playable("example-2.narration");
        for (party, program) in (0..).zip(&playable.answers.programs) {
            let events = slots(program);
            assert_eq!(spelt(&events, program), Ok(()));
            for event in 0..events.len() {
                for word in 0..events[event].len() {
                    let mut altered = slots(program);
                    altered[event][word] = Slot::Plain(altered[event][word].word() + 1);
                    let told = spelt(&altered, program).map_err(|failure| failure.status);
                    assert_eq!(told, Err(70), "event {event}, word {word}");
                }
            }
            let ours = Ours::of(&playable, party).unwrap();
            let words = part_words(program);
            for place in 0..=words.len() {
                let told = ours
                    .difference(place, &words)
                    .map_or_else(|failure| failure.status, |_| 0);
                assert_eq!(told, 70, "word {place}");
            }
        }
    }

    #[test]
    fn words_in_text() {
        assert_eq!(of_text("t", "1 2\t3 # 4\r\n4294967295"), Ok(vec![1, 2, 3, u32::MAX]));
        assert_eq!(of_text("t", ""), Ok(vec![]));
        for (text, at) in [("1\n +2", "t:2:2:"), ("4294967296", "t:1:1:"), ("1 -1", "t:1:3:")] {
            assert!(
                of_text("t", text).is_err_and(|told| told.message.starts_with(at)),
                "{text}"
            );
        }
    }
}
