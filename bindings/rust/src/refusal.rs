use std::error::Error;
use std::fmt;

/// Why a call was refused. Record and region are then as they were.
#[derive(Clone, Copy, Debug, PartialEq, Eq, Hash)]
pub enum Refusal {
    /// The record is unsound. An [`Arena`](crate::Arena) keeps its record to itself, so it is never refused this.
    State = 1,
    /// The region is too long, or of another length than the record's.
    Region = 2,
    /// A size, capacity or source length is over the maximum.
    Size = 3,
    /// An alignment, or at creation the minimum, isn't allowed.
    Align = 4,
    /// The block isn't a live one of this arena.
    Block = 5,
    /// Grow to a smaller size, or shrink to a larger.
    Direction = 6,
    /// The token isn't the block's.
    Token = 7,
    /// Neither the current chunk nor any rung of the ladder can take the request. The region needn't be full.
    Room = 8,
}

impl Refusal {
    pub fn number(self) -> usize {
        self as usize
    }

    /// What an entry said: 0 is no refusal.
    pub(crate) fn heard(number: usize) -> Result<(), Refusal> {
        Err(match number {
            0 => return Ok(()),
            1 => Refusal::State,
            2 => Refusal::Region,
            3 => Refusal::Size,
            4 => Refusal::Align,
            5 => Refusal::Block,
            6 => Refusal::Direction,
            7 => Refusal::Token,
            8 => Refusal::Room,
            _ => panic!("the archives are not those that this crate is for"),
        })
    }
}

impl fmt::Display for Refusal {
    fn fmt(&self, f: &mut fmt::Formatter<'_>) -> fmt::Result {
        let why = match self {
            Refusal::State => "the record is unsound",
            Refusal::Region => "the region's length is not allowed",
            Refusal::Size => "a size is over the maximum",
            Refusal::Align => "an alignment is not allowed",
            Refusal::Block => "the block is not a live one of this arena",
            Refusal::Direction => "grow to a smaller size, or shrink to a larger",
            Refusal::Token => "the token is not the block's",
            Refusal::Room => "neither the current chunk nor a new one has room",
        };
        write!(f, "refused {}: {why}", self.number())
    }
}

impl Error for Refusal {}

/// A refusal of a call that was handed a block: the block is given back, as live as it was.
///
/// `?` turns it into its [`Refusal`] where the block isn't needed any more.
#[derive(Debug, PartialEq, Eq)]
pub struct Refused<T> {
    pub refusal: Refusal,
    pub given_back: T,
}

impl<T> Refused<T> {
    pub(crate) fn giving_back(given_back: T) -> impl FnOnce(Refusal) -> Refused<T> {
        |refusal| Refused {
            refusal,
            given_back,
        }
    }
}

impl<T> From<Refused<T>> for Refusal {
    fn from(refused: Refused<T>) -> Refusal {
        refused.refusal
    }
}

impl<T> fmt::Display for Refused<T> {
    fn fmt(&self, f: &mut fmt::Formatter<'_>) -> fmt::Result {
        self.refusal.fmt(f)
    }
}

impl<T: fmt::Debug> Error for Refused<T> {}
