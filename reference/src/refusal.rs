//! What can be wrong with a month file, and the line that tells it.

use std::fmt;

/// A fault that ends the settlement of a file.
#[derive(Clone, Copy, Debug, PartialEq, Eq)]
pub enum Fault {
    /// The file is empty, or ends inside a record.
    CutShort,
    /// A kind that is not 1, 2 or 3.
    UnknownKind,
    /// A record out of its place, or a resource out of its number.
    OutOfPlace,
    /// A 65th resource, or a category above 3.
    UnfitResource,
    /// A field of the month record outside its limits.
    UnfitTerms,
    /// A day of a resource that is not in the roster.
    UnknownResource,
    /// A day that the month does not have.
    NoSuchDay,
    /// A day given twice.
    GivenTwice,
    /// Kilowatts above the limit, or an exemption above its showing.
    DayOverLimit,
    /// Flexible capacity shown in category 0.
    FlexibleInCategory0,
    /// A fund would pass its limit.
    FundOverLimit,
}

impl Fault {
    pub const ALL: [Fault; 11] = [
        Fault::CutShort,
        Fault::UnknownKind,
        Fault::OutOfPlace,
        Fault::UnfitResource,
        Fault::UnfitTerms,
        Fault::UnknownResource,
        Fault::NoSuchDay,
        Fault::GivenTwice,
        Fault::DayOverLimit,
        Fault::FlexibleInCategory0,
        Fault::FundOverLimit,
    ];

    pub fn number(self) -> u32 {
        self.label().0
    }

    /// The fault's number and the letter of its layer.
    fn label(self) -> (u32, char) {
        match self {
            Fault::CutShort => (40, 'R'),
            Fault::UnknownKind => (41, 'R'),
            Fault::OutOfPlace => (43, 'R'),
            Fault::UnfitResource => (10, 'S'),
            Fault::UnfitTerms => (12, 'S'),
            Fault::UnknownResource => (16, 'S'),
            Fault::NoSuchDay => (17, 'S'),
            Fault::GivenTwice => (18, 'S'),
            Fault::DayOverLimit => (19, 'S'),
            Fault::FlexibleInCategory0 => (20, 'S'),
            Fault::FundOverLimit => (32, 'B'),
        }
    }

    /// The refusal of a file for this fault at an offset.
    pub fn at(self, offset: usize) -> Refusal {
        Refusal {
            fault: self,
            offset,
        }
    }
}

/// A fault, and the offset of the record at fault.
#[derive(Clone, Copy, Debug, PartialEq, Eq)]
pub struct Refusal {
    pub fault: Fault,
    pub offset: usize,
}

impl fmt::Display for Refusal {
    fn fmt(&self, out: &mut fmt::Formatter<'_>) -> fmt::Result {
        let (number, layer) = self.fault.label();
        write!(out, "REFUSED {number} {layer} {}", self.offset)
    }
}
