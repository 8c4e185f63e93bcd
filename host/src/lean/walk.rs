//! One party's way through its steps: what it holds, what it makes, sends, opens, compares and stores, and the words
//! of its events, or only how many there are.

use super::read::{Book, Facts};
use crate::book::{Stop, Unmade, ATOM, CIPHER, MARK, MOST_STEPS, OPERATION, PUBLIC};

/// Bits of a row's state that say how the row is held; the others are the party's stamp.
const HOW: u32 = 1 << 20;
/// From here on a state is no placeholder's, and its lowest bits are the length of the row's image.
const LENGTHS: u32 = 1 << 19;
const LENGTH: u32 = 0x7ff;
/// The row is in the dictionary as itself; its image has two words.
const ITSELF: u32 = LENGTHS | 1 << 18 | 2;

/// The walks of the parties, one after another. Where `WRITE` is asked for below, words are written; else they are
/// counted.
pub struct Walk<'w, const N: usize> {
    pub book: &'w Book<'w>,
    facts: &'w Facts<N>,
    /// By a row: the stamp of a party that can build it, and how: by a placeholder, as itself, or from its parts, and
    /// then the length of the image. A row enters a dictionary only while it can't be built, and nothing leaves one:
    /// once it can be built it always can, with the same image.
    states: [u32; N],
    stamp: u32,
    /// The party's mark: whether it may make atoms.
    makes: bool,
    /// Images of the party, and by a row that is built from its parts where its own begins. What is behind the last one
    /// that was finished is of no use.
    images: Vec<u32>,
    begins: [u32; N],
    finished: usize,
    /// The next placeholder.
    next: u32,
    /// The step that is received.
    step: u32,
    /// What the party has stored so far, row, placeholder and step; a row is stored once at most.
    stored: [[u32; 3]; N],
    stored_rows: usize,
    /// The party's events of the step so far.
    so_far: u32,
    /// The words, as long as no more are there than there is room for, and how many were only counted after that.
    pub words: Vec<u32>,
    counted: usize,
    room: Option<usize>,
    /// By a step: the events of its sender, and of its receiver.
    pub events: [[u32; 2]; MOST_STEPS as usize],
}

impl<'w, const N: usize> Walk<'w, N> {
    /// A walk whose words are written, behind some heads, while there is room; or none of them.
    pub fn new(book: &'w Book<'w>, facts: &'w Facts<N>, heads: usize, room: Option<usize>) -> Walk<'w, N> {
        // So that most books' vectors needn't grow.
        let some = room.map_or(0, |_| N);
        let mut words = Vec::with_capacity(4 * some);
        words.resize(heads, 0);
        Walk {
            book,
            facts,
            states: [0; N],
            stamp: 0,
            makes: true,
            images: Vec::with_capacity(4 * some),
            begins: [0; N],
            finished: 0,
            next: 0,
            step: 0,
            stored: [[0; 3]; N],
            stored_rows: 0,
            so_far: 0,
            words,
            counted: 0,
            room,
            events: [[0; 2]; MOST_STEPS as usize],
        }
    }

    /// How many words there are, written or not.
    pub fn length(&self) -> usize {
        self.words.len() + self.counted
    }

    /// A party goes through those of its steps that have a bit, from its start to its end; or it comes to an atom that
    /// it would have to make and can't.
    pub fn party(&mut self, party: usize, mut steps: u64) -> Result<(), Stop> {
        self.start(party);
        if steps != 0 {
            self.know(party);
        }
        while steps != 0 {
            let step = steps.trailing_zeros();
            steps &= steps - 1;
            let receives = self.book.steps[step as usize][0] as usize != party;
            match (receives, self.writes()) {
                (false, true) => self.send::<true>(step),
                (false, false) => self.send::<false>(step),
                (true, true) => self.receive::<true>(step),
                (true, false) => self.receive::<false>(step),
            }?;
            self.events[step as usize][usize::from(receives)] = self.so_far;
            self.so_far = 0;
        }
        match self.writes() {
            true => self.end::<true>(),
            false => self.end::<false>(),
        }
        Ok(())
    }

    /// Whether all words so far are there, with room for more or just enough.
    fn writes(&self) -> bool {
        self.counted == 0 && self.room.is_some_and(|room| self.words.len() <= room)
    }

    fn start(&mut self, party: usize) {
        self.stamp += HOW;
        self.makes = self.book.parties[party][MARK] != 0;
        self.images.clear();
        self.finished = 0;
        self.next = 0;
        self.stored_rows = 0;
        self.so_far = 0;
    }

    fn know(&mut self, party: usize) {
        let [_, first, count, _] = self.book.parties[party];
        for &row in self.book.list(first, count) {
            self.states[row as usize % N] = self.stamp | ITSELF;
        }
    }

    /// An event of its own words and an image's or several, which begin at a place and have so many.
    #[inline]
    fn event<const WRITE: bool>(&mut self, own: &[u32], begins: usize, length: u32) {
        self.so_far += 1;
        if WRITE {
            self.words.extend_from_slice(own);
            self.words.extend_from_slice(&self.images[begins..]);
            self.images.truncate(self.finished);
        } else {
            self.counted += own.len() + length as usize;
        }
    }

    /// What the party sends as a step; or the atom that it would have to make and can't.
    fn send<const WRITE: bool>(&mut self, step: u32) -> Result<(), Stop> {
        let [_, _, first, count] = self.book.steps[step as usize];
        let begins = self.images.len();
        let mut length = 0;
        for &row in self.book.list(first, count) {
            length += self.build::<WRITE>(row, step)?;
        }
        self.event::<WRITE>(&[2, step, count], begins, length);
        Ok(())
    }

    /// What the party does with the messages of a step; nothing is ever refused.
    fn receive<const WRITE: bool>(&mut self, step: u32) -> Result<(), Stop> {
        let [_, _, first, count] = self.book.steps[step as usize];
        let placeholder = self.placeholders(count);
        self.step = step;
        self.event::<WRITE>(&[3, step, placeholder, count], self.images.len(), 0);
        self.receive_all::<WRITE>(self.book.list(first, count), placeholder);
        Ok(())
    }

    fn end<const WRITE: bool>(&mut self) {
        let stored = &self.stored.as_flattened()[..3 * self.stored_rows];
        if WRITE {
            self.words.extend_from_slice(&[6, self.stored_rows as u32]);
            self.words.extend_from_slice(stored);
        } else {
            self.counted += 2 + stored.len();
        }
    }

    fn placeholders(&mut self, count: u32) -> u32 {
        let first = self.next;
        self.next += count;
        first
    }

    /// Receives rows that have the placeholders from one on. The contents of the last are received in its place, so
    /// that ciphers in ciphers aren't gone into deeper and deeper.
    fn receive_all<const WRITE: bool>(&mut self, mut rows: &'w [u32], mut first: u32) {
        while let Some((&row, rest)) = rows.split_first() {
            let placeholder = first;
            (rows, first) = (rest, first + 1);
            match self.open::<WRITE>(row, placeholder) {
                Some((contents, begin)) if rest.is_empty() => (rows, first) = (contents, begin),
                Some((contents, begin)) => self.receive_all::<WRITE>(contents, begin),
                None => self.compare::<WRITE>(row, placeholder),
            }
        }
    }

    /// Opens a row if it is a cipher and the party can: its contents, and the first of their placeholders.
    #[inline(always)]
    fn open<const WRITE: bool>(&mut self, row: u32, placeholder: u32) -> Option<(&'w [u32], u32)> {
        let [kind, _, first, count] = self.book.rows[row as usize];
        if kind != CIPHER {
            return None;
        }
        let (&key, contents) = self.book.list(first, count).split_first()?;
        let begins = self.images.len();
        let length = self.opener::<WRITE>(key);
        if length == 0 {
            self.images.truncate(self.finished);
            return None;
        }
        let first = self.placeholders(count - 1);
        self.event::<WRITE>(&[5, placeholder, first, count - 1], begins, length);
        Some((contents, first))
    }

    /// Compares a row if it can be built, and else stores it.
    #[inline(always)]
    fn compare<const WRITE: bool>(&mut self, row: u32, placeholder: u32) {
        let begins = self.images.len();
        match self.image::<WRITE>(row) {
            0 => {
                self.images.truncate(self.finished);
                self.states[row as usize % N] = self.stamp | placeholder;
                self.stored[self.stored_rows % N] = [row, placeholder, self.step];
                self.stored_rows += 1;
            }
            length => self.event::<WRITE>(&[4, placeholder], begins, length),
        }
    }

    /// The image of a key's partner, and how long it is; 0 if that can't be built.
    fn opener<const WRITE: bool>(&mut self, key: u32) -> u32 {
        let [kind, _, first, _] = self.book.rows[key as usize];
        if kind < PUBLIC {
            return self.image::<WRITE>(key);
        }
        // The public half is kind 3 and image 4, the private one kind 4 and image 5.
        let partner = PUBLIC + PUBLIC + 1 - kind;
        let part = self.book.pool[first as usize];
        match self.facts.halves[part as usize % N][(partner - PUBLIC) as usize % 2] {
            0 => {
                if WRITE {
                    self.images.push(partner + 1);
                }
                match self.image::<WRITE>(part) {
                    0 => 0,
                    length => 1 + length,
                }
            }
            row => self.image::<WRITE>(u32::from(row)),
        }
    }

    /// The image of a row, behind the other images, and how long it is; 0 if the row can't be built, and then what was
    /// written is of no use.
    fn image<const WRITE: bool>(&mut self, row: u32) -> u32 {
        if let Some(length) = self.held::<WRITE>(row) {
            return length;
        }
        let [kind, tag, first, count] = self.book.rows[row as usize];
        if kind == ATOM {
            return 0;
        }
        let begins = self.images.len();
        let mut length = self.form::<WRITE>(kind, tag, count);
        for &part in self.book.list(first, count) {
            match self.image::<WRITE>(part) {
                0 => return 0,
                own => length += own,
            }
        }
        self.finish(row, begins, length)
    }

    /// The same in sending at a step: an atom that is missing is made. Or the atom that can't be.
    fn build<const WRITE: bool>(&mut self, row: u32, step: u32) -> Result<u32, Stop> {
        if let Some(length) = self.held::<WRITE>(row) {
            return Ok(length);
        }
        let [kind, tag, first, count] = self.book.rows[row as usize];
        if kind == ATOM {
            let taken = u32::from(self.facts.since[row as usize % N]) <= step;
            if taken || !self.makes {
                let why = if taken { Unmade::Taken } else { Unmade::Maker };
                return Err(Stop { why, step, row });
            }
            return Ok(self.make::<WRITE>(row));
        }
        let begins = self.images.len();
        let mut length = self.form::<WRITE>(kind, tag, count);
        for &part in self.book.list(first, count) {
            length += self.build::<WRITE>(part, step)?;
        }
        Ok(self.finish(row, begins, length))
    }

    /// The image of a row that is held, or was built before. Whether it is held as itself or by a placeholder is often
    /// guessed wrong, so the way doesn't depend on it.
    #[inline(always)]
    fn held<const WRITE: bool>(&mut self, row: u32) -> Option<u32> {
        let state = self.states[row as usize % N] ^ self.stamp;
        if state >= HOW {
            return None;
        }
        if (LENGTHS..=LENGTHS | LENGTH).contains(&state) {
            let length = state & LENGTH;
            if WRITE {
                let begins = self.begins[row as usize % N] as usize;
                self.images.extend_from_within(begins..begins + length as usize);
            }
            return Some(length);
        }
        if WRITE {
            let bound = state < LENGTHS;
            let word = if bound { state } else { row };
            self.images.extend_from_slice(&[u32::from(bound), word]);
        }
        Some(2)
    }

    fn make<const WRITE: bool>(&mut self, atom: u32) -> u32 {
        self.states[atom as usize % N] = self.stamp | ITSELF;
        self.so_far += 1;
        if WRITE {
            self.words.extend_from_slice(&[1, atom]);
            self.images.extend_from_slice(&[0, atom]);
        } else {
            self.counted += 2;
        }
        2
    }

    /// What an image has before those of the parts, and how long that is: its number is one more than the kind's. As
    /// many words as the longest has are written, and those that are too many are taken back.
    #[inline(always)]
    fn form<const WRITE: bool>(&mut self, kind: u32, tag: u32, count: u32) -> u32 {
        let length = match kind {
            OPERATION => 3,
            CIPHER => 2,
            _ => 1,
        };
        if WRITE {
            let begins = self.images.len();
            let second = if kind == OPERATION { tag } else { count - 1 };
            self.images.extend_from_slice(&[kind + 1, second, count]);
            self.images.truncate(begins + length as usize);
        }
        length
    }

    /// A row can be built from its parts from now on.
    #[inline(always)]
    fn finish(&mut self, row: u32, begins: usize, length: u32) -> u32 {
        self.states[row as usize % N] = self.stamp | LENGTHS | length;
        self.begins[row as usize % N] = begins as u32;
        self.finished = self.images.len();
        length
    }
}
