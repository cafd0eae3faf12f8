use std::error::Error;
use std::fmt;

macro_rules! refusals {
    ($($name:ident = $number:literal, $text:literal;)*) => {
        /// Why a call was refused. Where several reasons apply, it is the first in the call's order. The functions of this crate
        /// never answer 6, 13 or 28, since what they lend has the right length.
        #[derive(Clone, Copy, Debug, PartialEq, Eq, Hash)]
        #[non_exhaustive]
        pub enum Refusal {
            $(#[doc = $text] $name,)*
        }

        impl Refusal {
            /// Its number, as C sees it.
            pub fn number(self) -> u64 {
                match self { $(Refusal::$name => $number,)* }
            }

            /// Its text, in the words of the C header.
            pub fn text(self) -> &'static str {
                match self { $(Refusal::$name => $text,)* }
            }

            /// The refusal of that number, if there is one.
            pub fn from_number(number: u64) -> Option<Refusal> {
                match number { $($number => Some(Refusal::$name),)* _ => None }
            }
        }
    };
}

refusals! {
    TooManyRows = 1, "rows over 512";
    BadColumns = 2, "columns 0 or over 1024";
    BadK = 3, "k 0 or over 8";
    WrongMatrixLength = 4, "other than rows * W words, more or fewer: matrix, entry, writer's words together";
    PaddingNotZero = 5, "a padding bit is 1: in the matrix or packets, a bundle's body, the writer's words";
    RoomTooShort = 6, "the room has fewer words than needed; more are fine";
    BadBlockCount = 7, "n, the number of blocks, is 0 or not below columns";
    NotSquare = 8, "rows differ from columns";
    NoInverse = 9, "the matrix has no inverse";
    Contradictory = 10, "no image meets all packets";
    TooWide = 11, "columns + rows over 1024 where an identity goes beside the packets";
    NotBelowCount = 12, "a row or entry number that is not below the number of rows or entries";
    WrongBufferLength = 13, "result, image, marks or names of wrong length; the writer's lists differ in length";
    BadBundleLength = 20, "a bundle of under 2 or over 65535 bytes";
    BadEntryCount = 21, "no entry, or over 64";
    ContentsCut = 22, "the bundle ends inside its contents";
    UnknownKind = 23, "an entry's kind is not 1 or 2";
    BadEntryShape = 24, "an entry's rows over 512, or its columns 0 or over 1024";
    WrongOffset = 25, "an entry's offset is not where the contents, or the body before it, ended";
    BodyPastEnd = 26, "an entry's body runs past the bundle's end";
    BytesLeftOver = 27, "bytes after the last body";
    OutputTooShort = 28, "the writer's output has fewer bytes than the bundle";
    BundleTooLong = 29, "the writer's bundle would have over 65535 bytes";
}

impl fmt::Display for Refusal {
    fn fmt(&self, f: &mut fmt::Formatter) -> fmt::Result {
        write!(f, "refused {}: {}", self.number(), self.text())
    }
}

impl Error for Refusal {}

/// nothing if the number is 0
pub(crate) fn check(number: u64) -> Result<(), Refusal> {
    match number {
        0 => Ok(()),
        other => Err(Refusal::from_number(other).expect("a number of the list")),
    }
}
