//! The form of a body, and the number that says it across the boundary.

/// How a body stores an empty context. A reader gives the form that it read,
/// and a writer follows it, so that a header is written again to the bytes that
/// it was read from. A body with a pair has today's form.
#[derive(Clone, Copy, Debug, Default, PartialEq, Eq, Hash)]
pub enum Form {
    /// As 00 00. A body that is marked so takes any pairs.
    #[default]
    Today,
    /// As 00 02 00 00, which a strict reader refuses by 21. A body that is
    /// marked so has no pair: one that has is refused by 33.
    Old,
}

impl Form {
    #[inline]
    pub(crate) fn of_number(number: u32) -> Form {
        match number {
            0 => Form::Today,
            _ => Form::Old,
        }
    }

    #[inline]
    pub(crate) fn number(self) -> u32 {
        match self {
            Form::Today => 0,
            Form::Old => 1,
        }
    }
}
