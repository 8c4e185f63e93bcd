//! Reading a book: refusals 1 to 9 in one pass over its words, and on the way what the walks ask for.

use crate::book::{
    Layout, Refusal, ATOM, BOUNDS, COUNTS, HEADER, MOST_ARGUMENTS, MOST_KNOWN, MOST_MESSAGES, MOST_PARTIES, MOST_PARTS,
    MOST_SIZE, MOST_TAG, OFFSETS, PARTY, PUBLIC, ROW, STEP,
};

/// The four sections of a book whose header is right, as records.
pub struct Book<'w> {
    /// Kind, tag, first, count.
    pub rows: &'w [[u32; ROW]],
    /// Name, first, count, mark.
    pub parties: &'w [[u32; PARTY]],
    /// Sender, receiver, first, count.
    pub steps: &'w [[u32; STEP]],
    pub pool: &'w [u32],
}

impl<'w> Book<'w> {
    /// Refusals 1 to 3.
    pub fn of(words: &'w [u32]) -> Result<Book<'w>, Refusal> {
        let Some((&[t, rows, q, parties, l, steps, w, pool], _)) = words.split_first_chunk::<HEADER>() else {
            return Err(refused(1, 0));
        };
        let counts = [t, q, l, w];
        let outside = |(count, (least, most)): (&u32, (u32, u32))| *count < least || *count > most;
        if let Some(at) = counts.iter().zip(BOUNDS).position(outside) {
            return Err(refused(2, COUNTS[at]));
        }
        let layout = Layout::of(counts);
        let offsets = [rows, parties, steps, pool].map(|offset| offset as usize);
        if let Some(at) = offsets
            .iter()
            .zip(layout.offsets())
            .position(|(offset, right)| *offset != right)
        {
            return Err(refused(3, OFFSETS[at]));
        }
        if words.len() != layout.end {
            return Err(refused(3, HEADER));
        }
        let [rows, parties, steps, pool] = offsets;
        Ok(Book {
            rows: words[rows..parties].as_chunks().0,
            parties: words[parties..steps].as_chunks().0,
            steps: words[steps..pool].as_chunks().0,
            pool: &words[pool..],
        })
    }

    /// A list of the pool, which has passed.
    #[inline(always)]
    pub fn list(&self, first: u32, count: u32) -> &'w [u32] {
        &self.pool[first as usize..][..count as usize]
    }

    /// Refusal 6: rows that agree in kind, tag and parts.
    fn agree(&self, one: u32, other: u32) -> bool {
        let [one, other] = [one, other].map(|row| self.rows[row as usize]);
        one[..2] == other[..2] && self.list(one[2], one[3]) == self.list(other[2], other[3])
    }
}

#[cold]
fn refused(number: u32, place: usize) -> Refusal {
    Refusal::new(number, &[place as u32])
}

/// What a kind of row asks for.
struct Kind {
    least: u32,
    most: u32,
    tag: u32,
    /// What it adds to the sizes of its parts.
    size: u32,
}

const fn kind(least: u32, most: u32, tag: u32, size: u32) -> Kind {
    Kind { least, most, tag, size }
}

/// By number: atom, operation, cipher, public and private half.
const KINDS: [Kind; 5] = [
    kind(0, 0, 0, 2),
    kind(0, MOST_ARGUMENTS, MOST_TAG, 3),
    kind(1, MOST_PARTS, 0, 2),
    kind(1, 1, 0, 1),
    kind(1, 1, 0, 1),
];

/// The atom is taken at no step.
const NEVER: u8 = u8::MAX;

/// What a reading finds out about a book of up to `N` rows, a power of two.
pub struct Facts<const N: usize> {
    /// By a row: the row of its public half and that of its private one; 0 where there is none, as row 0 is no half.
    pub halves: [[u16; 2]; N],
    /// By a place of the pool: the row whose part is there.
    owners: [[u16; MOST_PARTS as usize]; N],
    /// By an atom: the first step at which it is taken.
    pub since: [u8; N],
    /// By a party: a bit for each of its steps.
    pub own: [u64; MOST_PARTIES as usize],
}

impl<const N: usize> Facts<N> {
    pub fn new() -> Facts<N> {
        Facts {
            halves: [[0; 2]; N],
            owners: [[0; MOST_PARTS as usize]; N],
            since: [NEVER; N],
            own: [0; MOST_PARTIES as usize],
        }
    }

    /// Refusals 4 to 9.
    pub fn read(&mut self, book: &Book) -> Result<(), Refusal> {
        let parts = self.rows(book)?;
        let read = self.parties(book, parts)?;
        let read = self.steps(book, read)?;
        if read != book.pool.len() {
            return Err(refused(9, 0));
        }
        if !book.steps.is_empty() {
            self.spread(&book.pool[..parts]);
        }
        Ok(())
    }

    /// Refusals 4 to 6, and how many words of the pool the rows have. A row that is too large or repeats another is
    /// kept in mind till the last row has passed the rule that comes before.
    fn rows(&mut self, book: &Book) -> Result<usize, Refusal> {
        let mut sizes = [0_u16; N];
        let mut seen = Seen::<N>::new();
        // The first of these, if there are any.
        let (mut large, mut repeated) = (usize::MAX, usize::MAX);
        let mut read = 0;
        for (number, row) in book.rows.iter().enumerate() {
            let checked = parts(row, &book.pool[read..], read).and_then(|parts| {
                let (size, hash) = sum(row, parts, number, &sizes)?;
                Some((parts, size, hash))
            });
            let Some((parts, size, hash)) = checked else {
                return Err(refused(4, number));
            };
            // As many as a row may have; the next row writes over what is too many.
            self.owners.as_flattened_mut()[read..read + MOST_PARTS as usize].fill(number as u16);
            read += parts.len();

            // What is past the bound stays past it, and sums stay small.
            sizes[number % N] = size.min(MOST_SIZE + 1) as u16;
            large = large.min(if size > MOST_SIZE { number } else { usize::MAX });
            let kind = row[0];
            if kind != ATOM && seen.add(hash, number as u32, |other| book.agree(other, number as u32)) {
                repeated = repeated.min(number);
            }
            // A row that is no half has none of its own yet, so that what is written changes nothing.
            let (whole, half) = match kind {
                PUBLIC.. => (parts[0] as usize, number),
                _ => (number, 0),
            };
            self.halves[whole % N][(kind as usize + 1) % 2] = half as u16;
        }
        match (large, repeated) {
            (usize::MAX, usize::MAX) => Ok(read),
            (usize::MAX, row) => Err(refused(6, row)),
            (row, _) => Err(refused(5, row)),
        }
    }

    /// Refusal 7, and what is taken from the start.
    fn parties(&mut self, book: &Book, mut read: usize) -> Result<usize, Refusal> {
        for (number, &[name, first, count, mark]) in book.parties.iter().enumerate() {
            let atom = book.rows.get(name as usize).is_some_and(|row| row[0] == ATOM);
            let new = book.parties[..number].iter().all(|other| other[0] != name);
            let fits = first as usize == read && count <= MOST_KNOWN && mark <= 1;
            let end = read + count as usize;
            let (true, Some(known)) = (atom && new && fits, book.pool.get(read..end)) else {
                return Err(refused(7, number));
            };
            read = end;
            // Without a way out of the loop several pairs are compared at once.
            let rising = known.windows(2).fold(true, |rising, pair| rising & (pair[0] < pair[1]));
            if !rising || known.last().is_some_and(|row| *row as usize >= book.rows.len()) {
                return Err(refused(7, number));
            }
            self.since[name as usize % N] = 0;
            for &row in known {
                self.since[row as usize % N] = 0;
            }
        }
        Ok(read)
    }

    /// Refusal 8, whose steps are whose, and what is taken after each.
    fn steps(&mut self, book: &Book, mut read: usize) -> Result<usize, Refusal> {
        for (number, &[sender, receiver, first, count]) in book.steps.iter().enumerate() {
            let parties = book.parties.len();
            let two = sender != receiver && (sender as usize) < parties && (receiver as usize) < parties;
            let fits = first as usize == read && count <= MOST_MESSAGES;
            let end = read + count as usize;
            let (true, Some(messages)) = (two && fits, book.pool.get(read..end)) else {
                return Err(refused(8, number));
            };
            read = end;
            if messages.iter().any(|row| *row as usize >= book.rows.len()) {
                return Err(refused(8, number));
            }
            for party in [sender, receiver] {
                self.own[party as usize] |= 1 << number;
            }
            for &row in messages {
                let since = &mut self.since[row as usize % N];
                *since = (*since).min(number as u8 + 1);
            }
        }
        Ok(read)
    }

    /// What is taken is so at any depth. Parts stand before their row, so one pass through the parts of the rows, from
    /// the last to the first, does.
    fn spread(&mut self, parts: &[u32]) {
        let owners = &self.owners.as_flattened()[..parts.len()];
        for (&part, &owner) in parts.iter().zip(owners).rev() {
            let own = self.since[owner as usize % N];
            let since = &mut self.since[part as usize % N];
            *since = (*since).min(own);
        }
    }
}

/// A row's parts, if all but they keep its rule; the pool is what is left of it from a place on.
#[inline(always)]
fn parts<'w>(&[kind, tag, first, count]: &[u32; ROW], pool: &'w [u32], place: usize) -> Option<&'w [u32]> {
    let rule = KINDS.get(kind as usize)?;
    let fits = first as usize == place && tag <= rule.tag && count >= rule.least && count <= rule.most;
    pool.get(..count as usize).filter(|_| fits)
}

/// A row's size and its hash, if all parts are before it. There is no way out of the loop but its end.
#[inline(always)]
fn sum<const N: usize>(
    &[kind, tag, _, count]: &[u32; ROW],
    parts: &[u32],
    number: usize,
    sizes: &[u16; N],
) -> Option<(u32, u64)> {
    let mut late = false;
    let mut size = KINDS[kind as usize].size;
    let mut hash = hash(u64::from(kind), u64::from(tag << 4 | count));
    for &part in parts {
        late |= part as usize >= number;
        size = size.wrapping_add(u32::from(sizes[part as usize % N]));
        hash = self::hash(hash, u64::from(part));
    }
    (!late).then_some((size, hash))
}

/// A step of the rows' hash; the upper bits are the ones to use.
#[inline(always)]
fn hash(hash: u64, word: u64) -> u64 {
    (hash.rotate_left(23) ^ word).wrapping_mul(0x9e37_79b9_7f4a_7c15)
}

/// The rows so far, by their hashes: twice as many slots as rows. A slot has 21 bits of a hash and a row's number and
/// one, or 0.
struct Seen<const N: usize> {
    slots: [[u32; 2]; N],
}

impl<const N: usize> Seen<N> {
    const NUMBER: u32 = 0x7ff;

    fn new() -> Seen<N> {
        Seen { slots: [[0; 2]; N] }
    }

    /// Adds a row; whether an earlier one agrees with it. Equal hashes prove nothing.
    #[inline(always)]
    fn add(&mut self, hash: u64, number: u32, agrees: impl Fn(u32) -> bool) -> bool {
        let slots = self.slots.as_flattened_mut();
        let own = (hash >> 21) as u32 & !Seen::<N>::NUMBER | (number + 1);
        let mut at = (hash >> 53) as usize % (2 * N);
        loop {
            let slot = slots[at];
            if slot == 0 {
                slots[at] = own;
                return false;
            }
            if (slot ^ own) <= Seen::<N>::NUMBER && agrees((slot & Seen::<N>::NUMBER) - 1) {
                return true;
            }
            at = (at + 1) % (2 * N);
        }
    }
}
