//! A description as it is written, and what it may be refused with.

/// A refusal: its number, the line it is given for, and the column of that line
/// where the fault begins (0 and 0 where it is given for no line).
#[derive(Clone, Copy, Debug, PartialEq, Eq)]
pub struct Refusal {
    pub reason: u8,
    pub line: usize,
    pub column: usize,
}

impl Refusal {
    pub fn of_no_line(reason: u8) -> Refusal {
        Refusal { reason, line: 0, column: 0 }
    }
}

/// A label as written: names with counts, in the order they stand in.
pub type Parts<N> = Vec<(N, u64)>;

/// A term. `N` is a name: a word while only the form was looked at, a number
/// once the name was found among those given.
#[derive(Clone, Debug)]
pub enum Term<N> {
    Act(N),
    Tau,
    Delta,
    Ref(usize),
    One(OneKind, usize),
    Two(TwoKind, usize, usize),
    With(usize, List<N>),
}

#[derive(Clone, Copy, Debug, PartialEq, Eq)]
pub enum OneKind {
    Sum,
    Cond,
}

#[derive(Clone, Copy, Debug, PartialEq, Eq)]
pub enum TwoKind {
    Choice,
    IfElse,
    Seq,
    Merge,
    LMerge,
    Sync,
}

/// The list behind the operand, for the kinds that have one.
#[derive(Clone, Debug)]
pub enum List<N> {
    Block(Vec<N>),
    Hide(Vec<N>),
    Rename(Vec<(N, N)>),
    Comm(Vec<(Parts<N>, N)>),
    Allow(Vec<Parts<N>>),
}

/// The labels that the answer is cut to.
#[derive(Clone, Debug)]
pub enum Order<N> {
    All,
    Only(Vec<Parts<N>>),
}

/// For each term, whether it is built of act, tau, delta and sync only, through
/// every sync in it. The operands of a term come before it, so that what they
/// are built of is known by then; a ref is never looked through.
pub fn multi_actions(terms: &[Term<usize>]) -> Vec<bool> {
    let mut found: Vec<bool> = Vec::new();
    for term in terms {
        found.push(match term {
            Term::Act(_) | Term::Tau | Term::Delta => true,
            Term::Two(TwoKind::Sync, left, right) => found[*left] && found[*right],
            _ => false,
        });
    }
    found
}

/// A well-formed description.
#[derive(Clone, Debug)]
pub struct Description {
    pub names: Vec<String>,
    pub terms: Vec<Term<usize>>,
    /// The body of each equation.
    pub bodies: Vec<usize>,
    pub root: usize,
    pub order: Order<usize>,
}
