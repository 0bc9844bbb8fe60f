//! Why there is no answer.

use crate::raw;
use core::fmt;

/// Why a file is refused. [`Cause::word`] is the word that a listing shows for it.
#[derive(Clone, Copy, Debug, PartialEq, Eq, Hash)]
#[non_exhaustive]
#[repr(u32)]
pub enum Cause {
    /// A number that this crate does not know, from a later library.
    Unknown = 0,
    /// The file is shorter than a file header.
    Short = 1,
    /// The file does not begin with the magic number.
    NotElf,
    /// The file class is not 64-bit.
    BadClass,
    /// The data encoding is not little-endian.
    BadData,
    /// The version of the identification is not 1.
    BadVersion,
    /// A count or an index is in section 0, which is not read.
    ExtendedNumbering,
    /// The file has more section headers or program headers than are allowed, or than the room holds.
    TooManyHeaders,
    /// A table's entries have another size than the standard's.
    EntrySize,
    /// A table ends past the end of the file.
    TableOutside,
    /// A section index names no section, or none of the type that is needed.
    BadLink,
    /// A section that should be a string table is not one.
    NotStrings,
    /// A table's size is not a multiple of its entries' size.
    SizeNotWhole,
    /// A name begins past the end of its string table.
    NameOutside,
    /// A name has no NUL before the end of its string table.
    NameUnended,
    /// A note table ends within a note.
    NoteCut,
    /// The file has no hash table.
    NoHash,
    /// A hash table's counts do not fit its section.
    HashShape,
    /// A word of a hash table is not the index of a chain and a symbol.
    HashIndex,
    /// A chain of a hash table loops.
    HashCycle,
    /// A relocation type is not supported.
    Unsupported,
    /// A value does not fit the bytes in which it is to be stored.
    Overflow,
    /// The file is not a relocatable file for x86-64.
    NotRel,
    /// A section has no address in the layout.
    Unplaced,
    /// A symbol has no definition.
    Undefined,
    /// A relocation's bytes are outside its section.
    PlaceOutside,
    /// A symbol index is not below the number of symbols.
    SymbolIndex,
    /// The file has 2^63 bytes or more.
    TooLong,
    /// The read budget is exhausted.
    Budget,
    /// No segment that is loaded has the bytes at an address.
    Unmapped,
    /// A record of symbol versions leads to a place where none is.
    VersionCut = 32,
    /// The number of a symbol version is too large, or no record names it.
    VersionIndex,
    /// The file is a thin archive: its members' bytes are in other files.
    Thin,
    /// The file does not begin with an archive's magic string.
    NotArchive,
    /// An archive has no member where one should be, or it ends past the end of the file.
    MemberCut,
    /// A LOAD segment begins on a page of the previous one, or below it.
    LoadOverlap,
    /// A word of relative relocations has no address before it, or its addresses end past 2^64.
    Relr,
    /// The file is not a program or a shared library for x86-64.
    NotImage,
    /// The address and the offset of a LOAD segment do not differ by whole pages.
    LoadAlign,
    /// A dynamic entry that relocations depend on has the tag of one before it.
    Repeat,
    /// A relocation changes a segment with the tables of relocations, or the dynamic entries.
    TableWritten,
}

use Cause::*;

/// The causes by their numbers.
const CAUSES: [Cause; 43] = [
    Unknown,
    Short,
    NotElf,
    BadClass,
    BadData,
    BadVersion,
    ExtendedNumbering,
    TooManyHeaders,
    EntrySize,
    TableOutside,
    BadLink,
    NotStrings,
    SizeNotWhole,
    NameOutside,
    NameUnended,
    NoteCut,
    NoHash,
    HashShape,
    HashIndex,
    HashCycle,
    Unsupported,
    Overflow,
    NotRel,
    Unplaced,
    Undefined,
    PlaceOutside,
    SymbolIndex,
    TooLong,
    Budget,
    Unmapped,
    Unknown,
    Unknown,
    VersionCut,
    VersionIndex,
    Thin,
    NotArchive,
    MemberCut,
    LoadOverlap,
    Relr,
    NotImage,
    LoadAlign,
    Repeat,
    TableWritten,
];

impl Cause {
    /// Returns the cause with a number of `elfsee.h`.
    pub fn of_number(number: u32) -> Cause {
        CAUSES.get(number as usize).copied().unwrap_or(Unknown)
    }

    /// Returns its number in `elfsee.h`.
    pub fn number(self) -> u32 {
        self as u32
    }

    /// Returns the word that a listing's last line has for it, written into `out`; empty for `Unknown`.
    pub fn word(self, out: &mut [u8; 32]) -> &str {
        // SAFETY: `out` has the length that is passed.
        let length = unsafe { raw::elfsee_cause_word(self.number(), out.as_mut_ptr(), out.len()) };
        core::str::from_utf8(&out[..length]).unwrap_or("")
    }
}

impl fmt::Display for Cause {
    fn fmt(&self, to: &mut fmt::Formatter<'_>) -> fmt::Result {
        to.write_str(self.word(&mut [0; 32]))
    }
}

/// The file is refused: for a cause, at an offset in it.
#[derive(Clone, Copy, Debug, PartialEq, Eq, Hash)]
pub struct Refused {
    /// Why.
    pub cause: Cause,
    /// The offset in the file, in bytes.
    pub at: u64,
}

impl Refused {
    pub(crate) fn of(end: &raw::End) -> Refused {
        Refused { cause: Cause::of_number(end.cause), at: end.at }
    }
}

impl fmt::Display for Refused {
    fn fmt(&self, to: &mut fmt::Formatter<'_>) -> fmt::Result {
        write!(to, "{} at 0x{:x}", self.cause, self.at)
    }
}

/// Why a call has no answer.
#[derive(Clone, Copy, Debug, PartialEq, Eq, Hash)]
pub enum Error {
    /// The file is refused, or the read budget is exhausted.
    Refused(Refused),
    /// `out` has no room for all of the answer.
    Full,
    /// A limit, a name, a layout or the room is outside its range. Nothing was read.
    BadCall,
}

impl From<Refused> for Error {
    fn from(refused: Refused) -> Error {
        Error::Refused(refused)
    }
}

impl fmt::Display for Error {
    fn fmt(&self, to: &mut fmt::Formatter<'_>) -> fmt::Result {
        match self {
            Error::Refused(refused) => refused.fmt(to),
            Error::Full => to.write_str("no room for the answer"),
            Error::BadCall => to.write_str("an argument outside its range"),
        }
    }
}

impl core::error::Error for Refused {}

impl core::error::Error for Error {}
