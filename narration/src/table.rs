//! The table while it is filled: each term gets a row when it first appears, its parts before it, and equal terms get
//! the same row. The limits of rows, sizes and pool are tested on the way.

use super::book::{own_size, Row, ATOM, CIPHER, OPERATION, PRIVATE, PUBLIC};
use super::limits;
use super::mistake::{mistake, Kind, Mistake, Spot};
use super::names::Names;
use super::tags::Tags;
use super::written::{Form, Written};
use std::collections::{HashMap, HashSet};

pub struct Table<'a> {
    tags: Tags<'a>,
    parties: HashSet<&'a str>,
    rows: Vec<Row>,
    sizes: Vec<u32>,
    /// Pool words of all lists so far.
    pool: usize,
    atoms: HashMap<&'a str, u32>,
    /// The rows that are no atoms, by kind, tag and parts: equal terms get equal rows.
    others: HashMap<(u32, u32, Vec<u32>), u32>,
    /// The row of each written term, in the order in which they were entered.
    places: Vec<(u32, Spot)>,
}

impl<'a> Table<'a> {
    pub fn new(tags: Tags<'a>, parties: HashSet<&'a str>) -> Table<'a> {
        Table {
            tags,
            parties,
            rows: Vec::new(),
            sizes: Vec::new(),
            pool: 0,
            atoms: HashMap::new(),
            others: HashMap::new(),
            places: Vec::new(),
        }
    }

    /// The rows, what the atoms and the operations among them are called, and where each stands.
    pub fn end(self) -> (Vec<Row>, Names, Vec<(u32, Spot)>) {
        let mut atoms = vec![None; self.rows.len()];
        for (name, row) in self.atoms {
            atoms[row as usize] = Some(name.to_string());
        }
        let operations = self.rows.iter().filter(|row| row.kind == OPERATION);
        let operations = operations.map(|row| (row.tag, self.tags.name(row.tag))).collect();
        (self.rows, Names { atoms, operations }, self.places)
    }

    pub fn atom(&mut self, name: &'a str, spot: Spot) -> Result<u32, Mistake> {
        if let Some(row) = self.atoms.get(name) {
            return Ok(*row);
        }
        let row = self.push(
            Row {
                kind: ATOM,
                tag: 0,
                parts: Vec::new(),
            },
            spot,
        )?;
        self.atoms.insert(name, row);
        Ok(row)
    }

    /// The row of a written term. A loop, as terms may nest deeper than the stack.
    pub fn enter(&mut self, terms: &[Written<'a>], term: usize) -> Result<u32, Mistake> {
        // The terms begun, each with the rows of its parts entered so far.
        let mut begun: Vec<(usize, Vec<u32>)> = vec![(term, Vec::new())];
        loop {
            let (term, parts) = begun.last().expect("the outermost term is only popped below");
            if let Some(part) = terms[*term].form.part(parts.len()) {
                begun.push((part, Vec::new()));
                continue;
            }
            let (term, parts) = begun.pop().expect("seen just above");
            let row = self.written(&terms[term], parts)?;
            self.places.push((row, terms[term].spot));
            match begun.last_mut() {
                Some((_, parts)) => parts.push(row),
                None => return Ok(row),
            }
        }
    }

    fn written(&mut self, term: &Written<'a>, parts: Vec<u32>) -> Result<u32, Mistake> {
        let (kind, tag) = match &term.form {
            Form::Atom(name) => return self.atom(name, term.spot),
            Form::Operation(name, _) => {
                if self.parties.contains(name) {
                    let found = format!("`{name}`, which is a party's name");
                    return Err(mistake(term.spot, "an operation's name", &found));
                }
                (OPERATION, self.tags.tag(name))
            }
            Form::Cipher { .. } => (CIPHER, 0),
            Form::Public(_) => (PUBLIC, 0),
            Form::Private(_) => (PRIVATE, 0),
        };
        let key = (kind, tag, parts);
        if let Some(row) = self.others.get(&key) {
            return Ok(*row);
        }
        let parts = key.2.clone();
        let row = self.push(Row { kind, tag, parts }, term.spot)?;
        self.others.insert(key, row);
        Ok(row)
    }

    fn push(&mut self, row: Row, spot: Spot) -> Result<u32, Mistake> {
        // As many parts as a row may have at most, each within the bound.
        let parts = row.parts.iter().map(|part| self.sizes[*part as usize]);
        let size = own_size(row.kind) + parts.sum::<u32>();
        if size > limits::SIZE {
            let expected = format!("a term of size at most {}", limits::SIZE);
            return Err(mistake(spot, &expected, &format!("one of size {size}")));
        }
        if self.rows.len() == limits::ROWS {
            let expected = format!("at most {} rows", limits::ROWS);
            return Err(mistake(spot, &expected, "a term that needs one more").of(Kind::Limit));
        }
        self.lists(row.parts.len(), spot)?;
        self.rows.push(row);
        self.sizes.push(size);
        Ok(self.rows.len() as u32 - 1)
    }

    /// Counts `words` more of the pool.
    pub fn lists(&mut self, words: usize, spot: Spot) -> Result<(), Mistake> {
        self.pool += words;
        if self.pool <= limits::POOL {
            return Ok(());
        }
        let expected = format!("lists of at most {} words in all", limits::POOL);
        Err(mistake(spot, &expected, "a term that needs more").of(Kind::Limit))
    }
}
