//! Terms: what a row of a book stands for (figure 1 of source 000, document 01 "The book"). As plain trees, and as
//! shared ones that are compared and hashed quickly, which the translation holds.

use std::collections::{HashMap, HashSet};
use std::hash::{BuildHasherDefault, Hash, Hasher};
use std::rc::Rc;

/// A term as a tree. An atom is told from every other atom by its row number alone.
#[derive(Clone, PartialEq, Eq, PartialOrd, Ord, Hash, Debug)]
pub enum Term {
    Atom(u32),
    Operation(u32, Vec<Term>),
    /// The key first, then the contents.
    Cipher(Box<Term>, Vec<Term>),
    Public(Box<Term>),
    Private(Box<Term>),
}

impl Term {
    /// "The partner of M+ is M-, of M- is M+, of any other key itself."
    pub fn partner(&self) -> Term {
        match self {
            Term::Public(part) => Term::Private(part.clone()),
            Term::Private(part) => Term::Public(part.clone()),
            other => other.clone(),
        }
    }

    /// The term's parts, a cipher's key before its contents.
    pub fn parts(&self) -> Vec<&Term> {
        match self {
            Term::Atom(_) => Vec::new(),
            Term::Operation(_, arguments) => arguments.iter().collect(),
            Term::Cipher(key, contents) => std::iter::once(&**key).chain(contents).collect(),
            Term::Public(part) | Term::Private(part) => vec![part],
        }
    }

    /// "A row's *size*: atom 2; operation 3 plus its parts' sizes; cipher 2 plus its parts' sizes;
    /// public or private half 1 plus its part's."
    pub fn size(&self) -> u64 {
        let own = match self {
            Term::Atom(_) | Term::Cipher(..) => 2,
            Term::Operation(..) => 3,
            Term::Public(_) | Term::Private(_) => 1,
        };
        own + self.parts().into_iter().map(Term::size).sum::<u64>()
    }

    /// Whether `atom` occurs in the term, at any depth.
    pub fn has_atom(&self, atom: u32) -> bool {
        match self {
            Term::Atom(own) => *own == atom,
            other => other.parts().into_iter().any(|part| part.has_atom(atom)),
        }
    }
}

/// A term that carries its digest and shares its parts, so that a map keyed by terms finds one
/// without walking it again: a chain of a thousand halves is looked up at every depth.
#[derive(Clone, Debug)]
pub struct Shared(Rc<Node>);

#[derive(Debug)]
struct Node {
    digest: u64,
    form: Form,
}

/// The form of a shared term; the same five as [`Term`]'s.
#[derive(PartialEq, Eq, Hash, Debug)]
pub enum Form {
    Atom(u32),
    Operation(u32, Vec<Shared>),
    Cipher(Shared, Vec<Shared>),
    Public(Shared),
    Private(Shared),
}

impl Shared {
    pub fn new(form: Form) -> Shared {
        let mut hasher = Fold::default();
        form.hash(&mut hasher);
        Shared(Rc::new(Node {
            digest: hasher.finish(),
            form,
        }))
    }

    pub fn form(&self) -> &Form {
        &self.0.form
    }

    /// The term's parts, a cipher's key before its contents.
    pub fn parts(&self) -> impl Iterator<Item = &Shared> {
        let (first, rest): (Option<&Shared>, &[Shared]) = match self.form() {
            Form::Atom(_) => (None, &[]),
            Form::Operation(_, arguments) => (None, arguments),
            Form::Cipher(key, contents) => (Some(key), contents),
            Form::Public(part) | Form::Private(part) => (Some(part), &[]),
        };
        first.into_iter().chain(rest)
    }

    /// The same partner as [`Term::partner`]; "the partner need not be a row".
    pub fn partner(&self) -> Shared {
        match self.form() {
            Form::Public(part) => Shared::new(Form::Private(part.clone())),
            Form::Private(part) => Shared::new(Form::Public(part.clone())),
            _ => self.clone(),
        }
    }
}

impl PartialEq for Shared {
    /// Equal digests prove nothing; the forms decide.
    fn eq(&self, other: &Shared) -> bool {
        Rc::ptr_eq(&self.0, &other.0) || (self.0.digest == other.0.digest && self.0.form == other.0.form)
    }
}

impl Eq for Shared {}

impl Hash for Shared {
    fn hash<H: Hasher>(&self, state: &mut H) {
        state.write_u64(self.0.digest);
    }
}

/// A map keyed by terms.
pub type SharedMap<V> = HashMap<Shared, V, BuildHasherDefault<Carried>>;
/// A set of terms.
pub type SharedSet = HashSet<Shared, BuildHasherDefault<Carried>>;

/// Hands on the digest a shared term carries: hashing it once more would add nothing.
#[derive(Default)]
pub struct Carried(u64);

impl Hasher for Carried {
    fn write_u64(&mut self, digest: u64) {
        self.0 = digest;
    }

    fn write(&mut self, bytes: &[u8]) {
        for byte in bytes {
            self.0 = self.0.rotate_left(8) ^ u64::from(*byte);
        }
    }

    fn finish(&self) -> u64 {
        self.0
    }
}

/// A quick digest of a few words. A book made to let digests agree gains nothing but a slower
/// answer: terms and rows are always compared themselves.
#[derive(Default)]
pub struct Fold(u64);

impl Fold {
    fn fold(&mut self, word: u64) {
        self.0 = (self.0.rotate_left(23) ^ word).wrapping_mul(0x9e37_79b9_7f4a_7c15);
    }
}

impl Hasher for Fold {
    fn write(&mut self, bytes: &[u8]) {
        for chunk in bytes.chunks(8) {
            let mut word = [0; 8];
            word[..chunk.len()].copy_from_slice(chunk);
            self.fold(u64::from_le_bytes(word));
        }
    }

    fn write_u32(&mut self, word: u32) {
        self.fold(u64::from(word));
    }

    fn write_u64(&mut self, word: u64) {
        self.fold(word);
    }

    fn write_usize(&mut self, word: usize) {
        self.fold(word as u64);
    }

    fn finish(&self) -> u64 {
        self.0 ^ (self.0 >> 32)
    }
}
