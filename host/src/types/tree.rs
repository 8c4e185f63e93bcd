//! Terms, effects, types, environments, processes and judgements. Effects are kept in order, so that plain equality is
//! that of multisets; a pair type's own variable is a number counted from outside, so that it is that of types up to
//! bound names.

#[derive(Clone, Debug, PartialEq, Eq, PartialOrd, Ord)]
pub enum Term {
    Name(u32),
    /// A pair type's own variable, by level. One more than a word's largest number is a level too.
    Bound(u64),
    Pair(Box<Term>, Box<Term>),
    /// Contents and key.
    Cipher(Box<Term>, Box<Term>),
}

#[derive(Clone, Debug, PartialEq, Eq, PartialOrd, Ord)]
pub enum Effect {
    End(Term),
    Check(Term),
}

/// A multiset of effects: a list in order.
#[derive(Clone, Debug, Default, PartialEq, Eq)]
pub struct Effects(Vec<Effect>);

#[derive(Clone, Debug, PartialEq, Eq)]
pub enum Type {
    Un,
    Pair(Box<Type>, Box<Type>),
    Channel(Box<Type>),
    Symkey(Box<Type>),
    Nonce(Effects),
}

/// The entry that was added last stands last.
pub type Environment = Vec<(u32, Type)>;

#[derive(Clone, Debug, PartialEq, Eq)]
pub enum Process {
    New(u32, Type, Box<Process>),
    Out(Term, Term, Box<Process>),
    Inp(Term, u32, Type, Box<Process>),
    Parallel(Box<Process>, Box<Process>),
    Stop,
    Split(Term, (u32, Type), (u32, Type), Box<Process>),
    Match(Term, Term, (u32, Type), Box<Process>),
    Decrypt(Term, Term, (u32, Type), Box<Process>),
    Begin(Term, Box<Process>),
    End(Term, Box<Process>),
    Cast(Term, u32, Effects, Box<Process>),
    Check(Term, Term, Box<Process>),
}

#[derive(Clone, Debug, PartialEq, Eq)]
pub enum Judgement {
    Good(Environment),
    Type(Environment, Type),
    Effect(Environment, Effects),
    Term(Environment, Term, Type),
    Process(Environment, Process, Effects),
}

impl Term {
    /// A term of definition 1, with no pair type's own variable in it.
    pub fn closed(&self) -> bool {
        match self {
            Term::Name(_) => true,
            Term::Bound(_) => false,
            Term::Pair(one, two) | Term::Cipher(one, two) => one.closed() && two.closed(),
        }
    }

    pub fn mentions(&self, name: u32) -> bool {
        match self {
            Term::Name(own) => *own == name,
            Term::Bound(_) => false,
            Term::Pair(one, two) | Term::Cipher(one, two) => one.mentions(name) || two.mentions(name),
        }
    }

    /// The same term with its names and variables changed.
    fn map(&self, change: &impl Fn(&Term) -> Term) -> Term {
        let both = |one: &Term, two: &Term| (Box::new(one.map(change)), Box::new(two.map(change)));
        match self {
            Term::Name(_) | Term::Bound(_) => change(self),
            Term::Pair(one, two) => {
                let (one, two) = both(one, two);
                Term::Pair(one, two)
            }
            Term::Cipher(one, two) => {
                let (one, two) = both(one, two);
                Term::Cipher(one, two)
            }
        }
    }
}

impl Effect {
    pub fn about(&self) -> &Term {
        match self {
            Effect::End(term) | Effect::Check(term) => term,
        }
    }

    fn map(&self, change: &impl Fn(&Term) -> Term) -> Effect {
        match self {
            Effect::End(term) => Effect::End(term.map(change)),
            Effect::Check(term) => Effect::Check(term.map(change)),
        }
    }
}

impl Effects {
    pub fn of(mut list: Vec<Effect>) -> Effects {
        list.sort();
        Effects(list)
    }

    pub fn list(&self) -> &[Effect] {
        &self.0
    }

    pub fn plus(&self, more: &[Effect]) -> Effects {
        Effects::of([self.list(), more].concat())
    }

    /// Taking away what isn't there removes nothing.
    pub fn minus(&self, less: &[Effect]) -> Effects {
        let mut left = self.0.clone();
        for effect in less {
            if let Some(place) = left.iter().position(|own| own == effect) {
                left.remove(place);
            }
        }
        Effects(left)
    }

    pub fn mentions(&self, name: u32) -> bool {
        self.0.iter().any(|effect| effect.about().mentions(name))
    }
}

impl Type {
    fn map(&self, change: &impl Fn(&Term) -> Term) -> Type {
        match self {
            Type::Un => Type::Un,
            Type::Pair(one, two) => Type::Pair(Box::new(one.map(change)), Box::new(two.map(change))),
            Type::Channel(inner) => Type::Channel(Box::new(inner.map(change))),
            Type::Symkey(inner) => Type::Symkey(Box::new(inner.map(change))),
            Type::Nonce(effects) => Type::Nonce(Effects::of(effects.0.iter().map(|own| own.map(change)).collect())),
        }
    }

    /// U with x bound, as the second part of a pair type.
    pub fn binding(&self, x: u32) -> Type {
        self.map(&|leaf| match leaf {
            Term::Name(name) if *name == x => Term::Bound(0),
            Term::Bound(level) => Term::Bound(level + 1),
            other => other.clone(),
        })
    }

    /// U[M/x], of the second part of a pair type.
    pub fn putting(&self, term: &Term) -> Type {
        self.map(&|leaf| match leaf {
            Term::Bound(0) => term.clone(),
            Term::Bound(level) => Term::Bound(level - 1),
            other => other.clone(),
        })
    }

    /// Definition 14.
    pub fn generatable(&self) -> bool {
        matches!(self, Type::Un | Type::Channel(_) | Type::Symkey(_))
    }
}

impl Process {
    /// The names that it binds, in the order in which they are written.
    pub fn binders(&self) -> Vec<u32> {
        let mut binders = Vec::new();
        self.gather(&mut binders);
        binders
    }

    fn gather(&self, binders: &mut Vec<u32>) {
        match self {
            Process::Stop => (),
            Process::Parallel(one, two) => {
                one.gather(binders);
                two.gather(binders);
            }
            Process::Split(_, (x, _), (y, _), next) => {
                binders.extend([x, y]);
                next.gather(binders);
            }
            Process::New(x, _, next)
            | Process::Inp(_, x, _, next)
            | Process::Match(_, _, (x, _), next)
            | Process::Decrypt(_, _, (x, _), next)
            | Process::Cast(_, x, _, next) => {
                binders.push(*x);
                next.gather(binders);
            }
            Process::Out(_, _, next) | Process::Begin(_, next) | Process::End(_, next) | Process::Check(_, _, next) => {
                next.gather(binders)
            }
        }
    }
}
