//! Why the library refuses a call, and why a call of the builder is not carried out.
use std::{error, fmt};

/// Why the library refused a sheet, a patch, a call of a canvas, a blend, a clip order or a step of a panel.
#[derive(Clone, Copy, Debug, PartialEq, Eq)]
#[non_exhaustive]
pub enum Refusal {
    /// 1
    SheetLength,
    /// 2
    Header,
    /// 3
    Pairs,
    /// 4
    Kind,
    /// 5
    ZeroByte,
    /// 6
    Float,
    /// 7
    Clips,
    /// 8
    Pixels,
    /// 9
    Scratch,
    /// 10
    Difference,
    /// 11
    Ink,
    /// 12
    State,
    /// 13
    Points,
    /// 14
    Many,
    /// 15
    Pitch,
    /// 19
    Buffer,
    /// 20
    Command,
    /// 21
    FlagWrite,
    /// 22
    NotReady,
    /// 23
    Order,
    /// A number that this crate does not know.
    Other(u32),
}

impl Refusal {
    /// Every refusal that a call gives.
    pub const ALL: [Refusal; 20] = [
        Refusal::SheetLength,
        Refusal::Header,
        Refusal::Pairs,
        Refusal::Kind,
        Refusal::ZeroByte,
        Refusal::Float,
        Refusal::Clips,
        Refusal::Pixels,
        Refusal::Scratch,
        Refusal::Difference,
        Refusal::Ink,
        Refusal::State,
        Refusal::Points,
        Refusal::Many,
        Refusal::Pitch,
        Refusal::Buffer,
        Refusal::Command,
        Refusal::FlagWrite,
        Refusal::NotReady,
        Refusal::Order,
    ];

    /// The number that the library returns.
    pub const fn number(self) -> u32 {
        match self {
            Refusal::SheetLength => 1,
            Refusal::Header => 2,
            Refusal::Pairs => 3,
            Refusal::Kind => 4,
            Refusal::ZeroByte => 5,
            Refusal::Float => 6,
            Refusal::Clips => 7,
            Refusal::Pixels => 8,
            Refusal::Scratch => 9,
            Refusal::Difference => 10,
            Refusal::Ink => 11,
            Refusal::State => 12,
            Refusal::Points => 13,
            Refusal::Many => 14,
            Refusal::Pitch => 15,
            Refusal::Buffer => 19,
            Refusal::Command => 20,
            Refusal::FlagWrite => 21,
            Refusal::NotReady => 22,
            Refusal::Order => 23,
            Refusal::Other(number) => number,
        }
    }

    /// The refusal of a number; none of 0, which is no refusal.
    pub fn of(number: u32) -> Option<Refusal> {
        match Refusal::ALL.into_iter().find(|refusal| refusal.number() == number) {
            None if number != 0 => Some(Refusal::Other(number)),
            found => found,
        }
    }

    /// What it means, as a sentence.
    pub const fn sentence(self) -> &'static str {
        match self {
            Refusal::SheetLength => "The sheet is under 12 or over 60,000 bytes.",
            Refusal::Header => "A side is outside 1 to 2,048, there are over 1,024 items, or a zero byte of the header is filled.",
            Refusal::Pairs => "The pairs of offset and length do not run on to the end of the sheet.",
            Refusal::Kind => "The item's kind is not 1 to 8, or its length is not its kind's.",
            Refusal::ZeroByte => "A zero byte of the item is filled, its paint kind is over 3 or its skip_inside over 1.",
            Refusal::Float => "A float is not finite or past 8,192 either way.",
            Refusal::Clips => "A clip is pushed while 16 are saved.",
            Refusal::Pixels => "The pixels lent are not pitch times height.",
            Refusal::Scratch => "The scratch lent is less than is needed.",
            Refusal::Difference => "The sheets differ in size, ground or item count, or in a push or pop of a clip.",
            Refusal::Ink => "An ink of a blend is over 255.",
            Refusal::State => "The call was given a state that a canvas cannot be in, or panel registers out of order.",
            Refusal::Points => "A polygon or polyline has over 64 points.",
            Refusal::Many => "The sheets differ in more than 32 shapes.",
            Refusal::Pitch => "The pitch is below the width or over 4,096.",
            Refusal::Buffer => "The sheet does not fit the buffer.",
            Refusal::Command => "The command is other than 1, or its box is neither empty nor inside the canvas.",
            Refusal::FlagWrite => "The value written to the flags is other than 128.",
            Refusal::NotReady => "A pixel is taken while none is ready.",
            Refusal::Order => "There is no clip order of this number: it is 1,093 or more.",
            Refusal::Other(_) => "The library gave a number that this crate does not know.",
        }
    }
}

impl fmt::Display for Refusal {
    fn fmt(&self, f: &mut fmt::Formatter) -> fmt::Result {
        f.write_str(self.sentence())
    }
}

impl error::Error for Refusal {}

/// A refusal and the item that it names.
#[derive(Clone, Copy, Debug, PartialEq, Eq)]
pub struct Refused {
    /// Why.
    pub refusal: Refusal,
    /// The item, counted from 1 (an index plus one); 0 where the refusal names none.
    pub item: u32,
}

impl Refused {
    /// The refusal of an answer by its number and item; none of number 0.
    pub(crate) fn of(number: u32, item: u32) -> Option<Refused> {
        Refusal::of(number).map(|refusal| Refused { refusal, item })
    }
}

impl fmt::Display for Refused {
    fn fmt(&self, f: &mut fmt::Formatter) -> fmt::Result {
        write!(f, "refused {} at {}: {}", self.refusal.number(), self.item, self.refusal)
    }
}

impl error::Error for Refused {}

/// Why a call of [`SheetBuilder`](crate::SheetBuilder) was not carried out. The builder is then as it was before the call.
#[derive(Clone, Copy, Debug, PartialEq)]
#[non_exhaustive]
pub enum SheetError {
    /// A side is outside 1 to 2,048.
    Sides {
        /// The width given.
        w: u32,
        /// The height given.
        h: u32,
    },
    /// A float that would be written is not finite or past 8,192 either way.
    Float {
        /// Which one.
        field: &'static str,
        /// Its value.
        value: f32,
    },
    /// 16 clips are saved already.
    Clips,
    /// A polygon or polyline of over 64 points.
    Points {
        /// How many were given.
        count: usize,
    },
    /// The sheet has 1,024 items already.
    Items,
    /// The sheet would be over 60,000 bytes.
    Length {
        /// How long it would be.
        bytes: usize,
    },
    /// There is no item of this index.
    NoItem {
        /// The index given.
        index: usize,
        /// How many items there are.
        count: usize,
    },
    /// The item of this index pushes or pops a clip, and only a shape can be replaced.
    NotAShape {
        /// The index given.
        index: usize,
    },
}

impl SheetError {
    /// The refusal that the library would give to the sheet; none where there would be no such sheet.
    pub const fn refusal(&self) -> Option<Refusal> {
        match self {
            SheetError::Sides { .. } | SheetError::Items => Some(Refusal::Header),
            SheetError::Float { .. } => Some(Refusal::Float),
            SheetError::Clips => Some(Refusal::Clips),
            SheetError::Points { .. } => Some(Refusal::Points),
            SheetError::Length { .. } => Some(Refusal::SheetLength),
            SheetError::NoItem { .. } | SheetError::NotAShape { .. } => None,
        }
    }
}

impl fmt::Display for SheetError {
    fn fmt(&self, f: &mut fmt::Formatter) -> fmt::Result {
        match self {
            SheetError::Sides { w, h } => write!(f, "the sides are {w} and {h}; each must be 1 to 2,048"),
            SheetError::Float { field, value } if value.is_finite() => {
                write!(f, "{field} is {value}; it must be -8,192 to 8,192")
            }
            SheetError::Float { field, value } => write!(f, "{field} is {value}; it must be finite"),
            SheetError::Clips => f.write_str("16 clips are saved; a 17th cannot be pushed"),
            SheetError::Points { count } => write!(f, "there are {count} points; a polygon or polyline has at most 64"),
            SheetError::Items => f.write_str("the sheet has 1,024 items, and no more can be added"),
            SheetError::Length { bytes } => write!(f, "the sheet would be {bytes} bytes long; 60,000 are the most"),
            SheetError::NoItem { index, count } => write!(f, "there is no item of index {index}; the sheet has {count} items"),
            SheetError::NotAShape { index } => write!(f, "the item of index {index} is a clip's push or pop; only a shape can be replaced"),
        }
    }
}

impl error::Error for SheetError {}

/// Why an edit of a ticket was not carried out. The ticket is then as it was.
#[derive(Clone, Copy, Debug, PartialEq)]
pub enum Error {
    /// A call of the builder failed.
    Sheet(SheetError),
    /// The library refused the patch.
    Refused(Refused),
}

impl fmt::Display for Error {
    fn fmt(&self, f: &mut fmt::Formatter) -> fmt::Result {
        match self {
            Error::Sheet(e) => e.fmt(f),
            Error::Refused(e) => e.fmt(f),
        }
    }
}

impl error::Error for Error {}

impl From<SheetError> for Error {
    fn from(e: SheetError) -> Error {
        Error::Sheet(e)
    }
}

impl From<Refused> for Error {
    fn from(e: Refused) -> Error {
        Error::Refused(e)
    }
}
