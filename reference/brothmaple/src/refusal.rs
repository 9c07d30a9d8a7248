//! The twenty refusals.

use std::error::Error;
use std::fmt;

/// Why something is refused; the value is the refusal's number.
#[derive(Clone, Copy, PartialEq, Eq, PartialOrd, Ord, Hash, Debug)]
#[repr(u8)]
pub enum Cause {
    /// An image's length is wrong, or a block is missing.
    Length = 1,
    /// A block's check differs: its bytes are damaged.
    Check = 2,
    /// A block is not the one that the order asks for, or is left over.
    Heading = 3,
    /// A count, or a kind of name, is beyond its limits.
    Count = 4,
    /// Something past the counts is not zero.
    Stray = 5,
    /// A site's subject, byte or type is wrong.
    Site = 6,
    /// A line's operation, names or type are wrong.
    Line = 7,
    /// The lines of a box are no tree.
    Tree = 8,
    /// A name is used with no binder above it, or is bound twice.
    Reach = 9,
    /// The state is not 9,112 words, or there is not one answer a move.
    Room = 10,
    /// The state breaks the state rules.
    Spoilt = 11,
    /// There is no such kind of move, box or thread.
    Nobody = 12,
    /// Intra with one thread twice, or inter with one box twice.
    OneSelf = 13,
    /// A thread is not at the line that the move needs.
    WrongLine = 14,
    /// Intra: the channels differ.
    Channel = 15,
    /// The name is not a site of the box, shown or hidden as the move needs.
    NoSite = 16,
    /// Inter: the types of the two sites share no held name.
    Unfit = 17,
    /// Inter: the name sent is restricted.
    Private = 18,
    /// The box has 16 threads or 16 sites already.
    Full = 19,
    /// The box has used its last stamp.
    Spent = 20,
}

impl Cause {
    /// All causes, by number from 1 on.
    pub const ALL: [Cause; 20] = [
        Cause::Length,
        Cause::Check,
        Cause::Heading,
        Cause::Count,
        Cause::Stray,
        Cause::Site,
        Cause::Line,
        Cause::Tree,
        Cause::Reach,
        Cause::Room,
        Cause::Spoilt,
        Cause::Nobody,
        Cause::OneSelf,
        Cause::WrongLine,
        Cause::Channel,
        Cause::NoSite,
        Cause::Unfit,
        Cause::Private,
        Cause::Full,
        Cause::Spent,
    ];

    /// The cause with a number, 1 to 20.
    ///
    /// ```
    /// use brothmaple::Cause;
    ///
    /// assert_eq!(Cause::with_number(14), Some(Cause::WrongLine));
    /// assert_eq!(Cause::with_number(0), None);
    /// assert_eq!(Cause::with_number(21), None);
    /// ```
    pub fn with_number(number: u8) -> Option<Cause> {
        Cause::ALL.into_iter().find(|cause| cause.number() == number)
    }

    /// The cause's number, 1 to 20.
    pub const fn number(self) -> u8 {
        self as u8
    }

    /// The trade's word.
    ///
    /// ```
    /// assert_eq!(brothmaple::Cause::WrongLine.word(), "wrong line");
    /// ```
    pub const fn word(self) -> &'static str {
        match self {
            Cause::Length => "length",
            Cause::Check => "check",
            Cause::Heading => "heading",
            Cause::Count => "count",
            Cause::Stray => "stray",
            Cause::Site => "site",
            Cause::Line => "line",
            Cause::Tree => "tree",
            Cause::Reach => "reach",
            Cause::Room => "room",
            Cause::Spoilt => "spoilt",
            Cause::Nobody => "nobody",
            Cause::OneSelf => "self",
            Cause::WrongLine => "wrong line",
            Cause::Channel => "channel",
            Cause::NoSite => "no site",
            Cause::Unfit => "unfit",
            Cause::Private => "private",
            Cause::Full => "full",
            Cause::Spent => "spent",
        }
    }
}

/// Prints the trade's word.
impl fmt::Display for Cause {
    fn fmt(&self, f: &mut fmt::Formatter<'_>) -> fmt::Result {
        f.write_str(self.word())
    }
}

impl Error for Cause {}

/// A refusal with its two places: the block and 0 for refusals 1 to 5 (0 and 0
/// where the length as a whole is wrong), the box and its site or line for 6 to
/// 9, else 0 and 0.
#[derive(Clone, Copy, PartialEq, Eq, Hash, Debug)]
pub struct Refusal {
    /// Why.
    pub cause: Cause,
    /// The first place.
    pub first: u32,
    /// The second place.
    pub second: u32,
}

/// Prints number and places: `6 1 0`.
impl fmt::Display for Refusal {
    fn fmt(&self, f: &mut fmt::Formatter<'_>) -> fmt::Result {
        write!(f, "{} {} {}", self.cause.number(), self.first, self.second)
    }
}

impl Error for Refusal {}

/// One of the two images.
#[derive(Clone, Copy, PartialEq, Eq, Hash, Debug)]
pub enum Image {
    /// The model.
    Model,
    /// The estimate.
    Estimate,
}

/// Prints `model` or `estimate`.
impl fmt::Display for Image {
    fn fmt(&self, f: &mut fmt::Formatter<'_>) -> fmt::Result {
        f.write_str(match self {
            Image::Model => "model",
            Image::Estimate => "estimate",
        })
    }
}

/// A refused image: which one, and the first refusal.
#[derive(Clone, Copy, PartialEq, Eq, Hash, Debug)]
pub struct RefusedImage {
    /// The image that is refused.
    pub image: Image,
    /// Its first refusal.
    pub refusal: Refusal,
}

/// Prints the checking program's line: `refused model 7 0 1`.
impl fmt::Display for RefusedImage {
    fn fmt(&self, f: &mut fmt::Formatter<'_>) -> fmt::Result {
        write!(f, "refused {} {}", self.image, self.refusal)
    }
}

impl Error for RefusedImage {}
