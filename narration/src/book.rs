//! A book: its rows, parties and steps, their bounds, and its words (document 01, "The book", with the fourth word of a
//! party, document 02, request 5). Whether words are a book at all is not asked here: the proved reader says that.

/// The header's words: four counts, each with the offset of its section.
pub const HEADER: usize = 8;
/// Which words of the header are counts, and which offsets: of rows, parties, steps and pool.
pub const COUNTS: [usize; 4] = [0, 2, 4, 6];
pub const OFFSETS: [usize; 4] = [1, 3, 5, 7];
/// The words of a row: kind, tag, first, count.
pub const ROW: usize = 4;
/// Of a party: name, first, count, mark; and which of them is the mark.
pub const PARTY: usize = 4;
pub const MARK: usize = 3;
/// Of a step: sender, receiver, first, count.
pub const STEP: usize = 4;

pub const MOST_ROWS: u32 = 1_024;
pub const MOST_PARTIES: u32 = 16;
pub const MOST_STEPS: u32 = 64;
pub const MOST_POOL: u32 = 8_192;
/// The bounds of the four counts, least and most.
pub const BOUNDS: [(u32, u32); 4] = [(1, MOST_ROWS), (1, MOST_PARTIES), (0, MOST_STEPS), (0, MOST_POOL)];
/// The words of the longest book.
pub const LONGEST: usize = Layout::of([MOST_ROWS, MOST_PARTIES, MOST_STEPS, MOST_POOL]).end;

pub const MOST_TAG: u32 = 65_535;
pub const MOST_ARGUMENTS: u32 = 8;
/// A cipher's key and its contents, of which there may be as many as an operation has arguments.
pub const MOST_PARTS: u32 = 1 + MOST_ARGUMENTS;
pub const MOST_KNOWN: u32 = 256;
pub const MOST_MESSAGES: u32 = 8;
/// "No size exceeds 1,024."
pub const MOST_SIZE: u32 = 1_024;

pub const ATOM: u32 = 0;
pub const OPERATION: u32 = 1;
pub const CIPHER: u32 = 2;
pub const PUBLIC: u32 = 3;
pub const PRIVATE: u32 = 4;

/// How many parts a row of this kind has, least and most; nothing if there is no such kind.
pub fn parts(kind: u32) -> Option<(u32, u32)> {
    match kind {
        ATOM => Some((0, 0)),
        OPERATION => Some((0, MOST_ARGUMENTS)),
        CIPHER => Some((1, MOST_PARTS)),
        PUBLIC | PRIVATE => Some((1, 1)),
        _ => None,
    }
}

/// What a row of this kind adds to the sizes of its parts.
pub fn own_size(kind: u32) -> u32 {
    match kind {
        ATOM | CIPHER => 2,
        OPERATION => 3,
        _ => 1,
    }
}

/// One row of the table: kind 0 atom, 1 operation, 2 cipher (key first), 3 public half, 4 private half.
#[derive(Clone, PartialEq, Eq, Hash, Debug)]
pub struct Row {
    pub kind: u32,
    pub tag: u32,
    pub parts: Vec<u32>,
}

#[derive(Clone, PartialEq, Eq, Debug)]
pub struct Party {
    pub name: u32,
    pub known: Vec<u32>,
    /// Its mark: "1 may make, 0 may not".
    pub makes: bool,
}

#[derive(Clone, PartialEq, Eq, Debug)]
pub struct Step {
    pub sender: u32,
    pub receiver: u32,
    pub messages: Vec<u32>,
}

#[derive(Clone, PartialEq, Eq, Debug)]
pub struct Book {
    pub rows: Vec<Row>,
    pub parties: Vec<Party>,
    pub steps: Vec<Step>,
}

impl Book {
    /// The book of words that the reader accepts; of others whatever they spell, or nothing. Only what would leave the
    /// words is tested here.
    pub fn of(words: &[u32]) -> Option<Book> {
        let counts = COUNTS.map(|word| words.get(word).copied());
        let [rows, parties, steps, _] = counts;
        let (rows, parties, steps) = (rows? as usize, parties? as usize, steps? as usize);
        let layout = Layout::counted(words.get(..HEADER)?);
        let pool = words.get(layout.pool..layout.end)?;
        let list = |first: u32, count: u32| -> Option<Vec<u32>> {
            let from = first as usize;
            pool.get(from..from.checked_add(count as usize)?).map(<[u32]>::to_vec)
        };
        let four = |at: usize| [words[at], words[at + 1], words[at + 2], words[at + 3]];
        let row = |number| {
            let [kind, tag, first, count] = four(layout.row(number));
            let parts = list(first, count)?;
            Some(Row { kind, tag, parts })
        };
        let party = |number| {
            let [name, first, count, mark] = four(layout.party(number));
            let known = list(first, count)?;
            Some(Party {
                name,
                known,
                makes: mark == 1,
            })
        };
        let step = |number| {
            let [sender, receiver, first, count] = four(layout.step(number));
            let messages = list(first, count)?;
            Some(Step {
                sender,
                receiver,
                messages,
            })
        };
        Some(Book {
            rows: (0..rows).map(row).collect::<Option<_>>()?,
            parties: (0..parties).map(party).collect::<Option<_>>()?,
            steps: (0..steps).map(step).collect::<Option<_>>()?,
        })
    }

    /// The book's words. Nothing is tested here: a book that breaks a rule is written as it is.
    pub fn words(&self) -> Vec<u32> {
        let lists = (self.rows.iter().map(|row| &row.parts))
            .chain(self.parties.iter().map(|party| &party.known))
            .chain(self.steps.iter().map(|step| &step.messages));
        let pool: Vec<u32> = lists.flatten().copied().collect();

        let counts = [self.rows.len(), self.parties.len(), self.steps.len(), pool.len()];
        let counts = counts.map(|count| count as u32);
        let layout = Layout::of(counts);
        let mut words = Vec::with_capacity(layout.end);
        for (count, offset) in counts.into_iter().zip(layout.offsets()) {
            words.extend([count, offset as u32]);
        }
        // "Each *first* is the sum of the counts before it (also where its own count is 0)."
        let mut first = 0;
        let mut list = |count: usize| {
            let own = [first, count as u32];
            first += count as u32;
            own
        };
        for row in &self.rows {
            words.extend([row.kind, row.tag]);
            words.extend(list(row.parts.len()));
        }
        for party in &self.parties {
            words.push(party.name);
            words.extend(list(party.known.len()));
            words.push(u32::from(party.makes));
        }
        for step in &self.steps {
            words.extend([step.sender, step.receiver]);
            words.extend(list(step.messages.len()));
        }
        words.extend(pool);
        words
    }
}

/// Where the sections of a book begin, by their counts, and where the last one ends: "four sections without gaps".
#[derive(Clone, Copy, PartialEq, Eq, Debug)]
pub struct Layout {
    pub rows: usize,
    pub parties: usize,
    pub steps: usize,
    pub pool: usize,
    pub end: usize,
}

impl Layout {
    /// Of so many rows, parties, steps and pool words.
    pub const fn of([rows, parties, steps, pool]: [u32; 4]) -> Layout {
        let parties_at = HEADER + ROW * rows as usize;
        let steps_at = parties_at + PARTY * parties as usize;
        let pool_at = steps_at + STEP * steps as usize;
        Layout {
            rows: HEADER,
            parties: parties_at,
            steps: steps_at,
            pool: pool_at,
            end: pool_at + pool as usize,
        }
    }

    /// By the counts of a header, whatever its offsets are.
    pub fn counted(header: &[u32]) -> Layout {
        Layout::of(COUNTS.map(|word| header[word]))
    }

    pub const fn offsets(self) -> [usize; 4] {
        [self.rows, self.parties, self.steps, self.pool]
    }

    /// Where a row's words begin, and so on.
    pub const fn row(self, number: usize) -> usize {
        self.rows + ROW * number
    }

    pub const fn party(self, number: usize) -> usize {
        self.parties + PARTY * number
    }

    pub const fn step(self, number: usize) -> usize {
        self.steps + STEP * number
    }
}

/// The four sections of words whose header is right: they have passed refusals 1 to 3.
pub struct Sections<'w> {
    pub rows: &'w [u32],
    pub parties: &'w [u32],
    pub steps: &'w [u32],
    pub pool: &'w [u32],
}

impl<'w> Sections<'w> {
    pub fn of(words: &'w [u32]) -> Sections<'w> {
        let layout = Layout::counted(words);
        Sections {
            rows: &words[layout.rows..layout.parties],
            parties: &words[layout.parties..layout.steps],
            steps: &words[layout.steps..layout.pool],
            pool: &words[layout.pool..layout.end],
        }
    }
}
