//! When the kernel says no.
use core::fmt;

/// Why a call was refused, by document 01's number. The table is then, word for word, as it was lent.
///
/// ```
/// use spanwhistle::Refusal;
///
/// assert_eq!(Refusal::NoRoom.number(), 6);
/// assert_eq!(Refusal::NoRoom.to_string(), "refusal 6: there is no room for the answer");
/// ```
///
/// With feature `std` it is a `std::error::Error`, so that `?` takes it into a `Box<dyn Error>`.
///
/// Later versions may refuse by further numbers, so a `match` on it has an arm for the rest.
#[derive(Clone, Copy, Debug, PartialEq, Eq, Hash)]
#[non_exhaustive]
pub enum Refusal {
    /// A length is none that a table may have, or the lengths do not go together.
    BadLength = 1,
    /// The table is not sound: some word is not as it must be.
    NotSound = 2,
    /// An id is neither TRUE nor FALSE nor of a node that this table has.
    UnknownId = 3,
    /// A variable is 64 or more, or a boolean where a range is asked, or the other way round.
    BadVariable = 4,
    /// A place of a reading lies outside the lowest and the highest.
    BadPlace = 5,
    /// No sound table that goes on from this one has room for the answer, with at most 64 edges a node.
    NoRoom = 6,
}

impl Refusal {
    /// The number of the refusal, 1 to 6.
    pub const fn number(self) -> u32 {
        self as u32
    }
}

impl fmt::Display for Refusal {
    fn fmt(&self, f: &mut fmt::Formatter<'_>) -> fmt::Result {
        let why = match self {
            Refusal::BadLength => "a length is not allowed",
            Refusal::NotSound => "the table is not sound",
            Refusal::UnknownId => "the table has no such id",
            Refusal::BadVariable => "there is no such variable of this kind",
            Refusal::BadPlace => "a place lies beyond the ends",
            Refusal::NoRoom => "there is no room for the answer",
        };
        write!(f, "refusal {}: {}", self.number(), why)
    }
}

#[cfg(feature = "std")]
impl std::error::Error for Refusal {}

/// What a call answered, by the number that it returned. The kernel returns no number above 6; were another archive linked that does, the
/// last arm stops the program, and nothing is made of a number that has no meaning.
pub(crate) fn told<T>(number: u32, answer: T) -> Result<T, Refusal> {
    match number {
        0 => Ok(answer),
        1 => Err(Refusal::BadLength),
        2 => Err(Refusal::NotSound),
        3 => Err(Refusal::UnknownId),
        4 => Err(Refusal::BadVariable),
        5 => Err(Refusal::BadPlace),
        6 => Err(Refusal::NoRoom),
        _ => panic!("the kernel returned {}: no such number", number),
    }
}

#[cfg(test)]
mod tests {
    use super::*;

    #[test]
    fn each_number_comes_back() {
        assert_eq!(told(0, 'x'), Ok('x'));
        for number in 1..=6 {
            assert_eq!(told(number, 'x').map_err(Refusal::number), Err(number));
        }
    }

    #[test]
    #[should_panic(expected = "no such number")]
    fn a_number_without_meaning_stops_the_program() {
        let _ = told(7, ());
    }
}
