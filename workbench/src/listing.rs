//! A listing's words and the programs that they spell. Decoding is plain reading: whether a program is right is the proved
//! translator's matter; that nothing was lost here is the guard's, which encodes the programs again.

/// A term as a party has it: parts of it as themselves, parts under placeholders.
#[derive(Clone, PartialEq, Eq, Debug)]
pub enum Image {
    /// Held as itself: the row.
    Itself(u32),
    Placeholder(u32),
    /// The tag and the arguments.
    Operation(u32, Vec<Image>),
    /// The key and the contents.
    Cipher(Box<Image>, Vec<Image>),
    Public(Box<Image>),
    Private(Box<Image>),
}

#[derive(Clone, PartialEq, Eq, Debug)]
pub enum Event {
    New {
        row: u32,
    },
    Send {
        step: u32,
        images: Vec<Image>,
    },
    Receive {
        step: u32,
        first: u32,
        n: u32,
    },
    Check {
        placeholder: u32,
        image: Image,
    },
    Open {
        placeholder: u32,
        first: u32,
        n: u32,
        key: Image,
    },
    End {
        stored: Vec<Stored>,
    },
}

/// What END tells of one row: stored under this placeholder at this step.
#[derive(Clone, Copy, PartialEq, Eq, Debug)]
pub struct Stored {
    pub row: u32,
    pub placeholder: u32,
    pub step: u32,
}

/// One party's events, END last.
pub type Program = Vec<Event>;

/// The programs of a listing's words; nothing if the words spell none.
pub fn decode(words: &[u32]) -> Option<Vec<Program>> {
    let (parties, heads) = words.split_first()?;
    let heads = heads.get(..2 * *parties as usize)?;
    let part = |head: &[u32]| -> Option<Program> {
        let from = head[0] as usize;
        part(words.get(from..from.checked_add(head[1] as usize)?)?)
    };
    heads.chunks_exact(2).map(part).collect()
}

/// The program of one party's part of a listing.
pub fn part(words: &[u32]) -> Option<Program> {
    let mut words = Words(words);
    let mut events = Vec::new();
    while !matches!(events.last(), Some(Event::End { .. })) {
        events.push(words.event()?);
    }
    words.0.is_empty().then_some(events)
}

struct Words<'w>(&'w [u32]);

impl Words<'_> {
    fn next(&mut self) -> Option<u32> {
        let (first, rest) = self.0.split_first()?;
        self.0 = rest;
        Some(*first)
    }

    fn event(&mut self) -> Option<Event> {
        Some(match self.next()? {
            1 => Event::New { row: self.next()? },
            2 => {
                let step = self.next()?;
                let n = self.next()?;
                Event::Send {
                    step,
                    images: self.images(n)?,
                }
            }
            3 => Event::Receive {
                step: self.next()?,
                first: self.next()?,
                n: self.next()?,
            },
            4 => Event::Check {
                placeholder: self.next()?,
                image: self.image()?,
            },
            5 => Event::Open {
                placeholder: self.next()?,
                first: self.next()?,
                n: self.next()?,
                key: self.image()?,
            },
            6 => {
                let count = self.next()?;
                let triple = |words: &mut Self| {
                    Some(Stored {
                        row: words.next()?,
                        placeholder: words.next()?,
                        step: words.next()?,
                    })
                };
                let stored = (0..count).map(|_| triple(self)).collect::<Option<_>>()?;
                Event::End { stored }
            }
            _ => return None,
        })
    }

    fn images(&mut self, n: u32) -> Option<Vec<Image>> {
        (0..n).map(|_| self.image()).collect()
    }

    fn boxed(&mut self) -> Option<Box<Image>> {
        self.image().map(Box::new)
    }

    fn image(&mut self) -> Option<Image> {
        Some(match self.next()? {
            0 => Image::Itself(self.next()?),
            1 => Image::Placeholder(self.next()?),
            2 => {
                let tag = self.next()?;
                let n = self.next()?;
                Image::Operation(tag, self.images(n)?)
            }
            3 => {
                let n = self.next()?;
                let key = self.boxed()?;
                Image::Cipher(key, self.images(n)?)
            }
            4 => Image::Public(self.boxed()?),
            5 => Image::Private(self.boxed()?),
            _ => return None,
        })
    }
}

/// The listing's words of these programs.
pub fn encode(programs: &[Program]) -> Vec<u32> {
    let parts: Vec<Vec<u32>> = programs.iter().map(|program| part_words(program)).collect();
    let mut words = vec![programs.len() as u32];
    let mut at = 1 + 2 * programs.len();
    for part in &parts {
        words.extend([at as u32, part.len() as u32]);
        at += part.len();
    }
    words.extend(parts.concat());
    words
}

/// The words of one party's part.
pub fn part_words(program: &[Event]) -> Vec<u32> {
    let mut words = Vec::new();
    program.iter().for_each(|event| put_event(event, &mut words));
    words
}

fn put_event(event: &Event, words: &mut Vec<u32>) {
    match event {
        Event::New { row } => words.extend([1, *row]),
        Event::Send { step, images } => {
            words.extend([2, *step, images.len() as u32]);
            images.iter().for_each(|image| put_image(image, words));
        }
        Event::Receive { step, first, n } => words.extend([3, *step, *first, *n]),
        Event::Check { placeholder, image } => {
            words.extend([4, *placeholder]);
            put_image(image, words);
        }
        Event::Open {
            placeholder,
            first,
            n,
            key,
        } => {
            words.extend([5, *placeholder, *first, *n]);
            put_image(key, words);
        }
        Event::End { stored } => {
            words.extend([6, stored.len() as u32]);
            for own in stored {
                words.extend([own.row, own.placeholder, own.step]);
            }
        }
    }
}

fn put_image(image: &Image, words: &mut Vec<u32>) {
    match image {
        Image::Itself(row) => words.extend([0, *row]),
        Image::Placeholder(number) => words.extend([1, *number]),
        Image::Operation(tag, arguments) => {
            words.extend([2, *tag, arguments.len() as u32]);
            arguments.iter().for_each(|argument| put_image(argument, words));
        }
        Image::Cipher(key, contents) => {
            words.extend([3, contents.len() as u32]);
            put_image(key, words);
            contents.iter().for_each(|content| put_image(content, words));
        }
        Image::Public(part) => {
            words.push(4);
            put_image(part, words);
        }
        Image::Private(part) => {
            words.push(5);
            put_image(part, words);
        }
    }
}
