//! Names: where they are, rows with names, and how names are escaped for a terminal.

use crate::error::Refused;
use crate::raw;
use crate::rows::{name_in, sealed::Fetch, Rows};
use core::fmt;

/// A string table of a file. It is `Copy`, so names can be read during an iteration over rows.
///
/// ```
/// # fn main() -> Result<(), elfsee::Error> {
/// let file = elfsee::File::new(b"\0main\0");
/// let names = file.names_in(&elfsee::Range { at: 0, len: 6 });
/// assert_eq!(names.at(1)?, b"main");
/// assert_eq!(names.at(6).unwrap_err().cause, elfsee::Cause::NameOutside);
/// # Ok(())
/// # }
/// ```
#[derive(Clone, Copy, Debug)]
pub struct Names<'a> {
    file: &'a [u8],
    strings: raw::Range,
}

impl<'a> Names<'a> {
    pub(crate) fn new(file: &'a [u8], strings: raw::Range) -> Self {
        Names { file, strings }
    }

    /// Returns the name at an offset in the table, without its NUL. A refusal's offset is the file offset at which the
    /// name should begin.
    pub fn at(&self, offset: u64) -> Result<&'a [u8], Refused> {
        name_in(self.file, &self.strings, offset)
    }

    /// Returns where the table is.
    pub fn range(&self) -> raw::Range {
        self.strings
    }

    /// Returns the name at an offset; a refusal's offset is that of the row that names it.
    pub(crate) fn of_row(&self, offset: u64, row: u64) -> Result<&'a [u8], Refused> {
        self.at(offset).map_err(|refused| Refused { at: row, ..refused })
    }
}

/// A row that has a name.
pub trait HasName: Fetch {
    /// Returns where its name is in the string table that goes with its table; `None` if it names nothing.
    fn name_offset(&self) -> Option<u64>;
}

impl HasName for raw::Symbol {
    fn name_offset(&self) -> Option<u64> {
        Some(self.name.into())
    }
}

impl HasName for raw::Dynamic {
    /// Entries with the tags NEEDED, SONAME, RPATH and RUNPATH name something (gABI, Dynamic Section).
    fn name_offset(&self) -> Option<u64> {
        matches!(self.tag, 1 | 14 | 15 | 29).then(|| self.value)
    }
}

/// An iterator over the rows of a table, each with its name. It ends after the first refusal, which has the cause and
/// the place of a listing: the place is the row's. The name of a dynamic entry that names nothing is empty.
#[derive(Clone, Debug)]
pub struct Named<'a, R> {
    rows: Rows<'a, R>,
    names: Names<'a>,
    passed: u64,
    ended: bool,
}

impl<'a, R: HasName> Named<'a, R> {
    pub(crate) fn new(rows: Rows<'a, R>, names: Names<'a>, passed: u64) -> Self {
        Named { rows, names, passed, ended: false }
    }
}

impl<'a, R: HasName> Iterator for Named<'a, R> {
    type Item = Result<(R, &'a [u8]), Refused>;

    fn next(&mut self) -> Option<Self::Item> {
        if self.ended {
            return None;
        }
        let row = self.rows.next()?;
        let (first, size) = self.rows.place();
        let at = first.saturating_add(size.saturating_mul(self.passed));
        self.passed += 1;
        let name = match row.name_offset() {
            Some(offset) => self.names.of_row(offset, at),
            None => Ok(&[][..]),
        };
        self.ended = name.is_err();
        Some(name.map(|name| (row, name)))
    }
}

/// Returns a name escaped as in a listing, so that nothing acts on a terminal: a backslash is doubled, and a byte that
/// is not a printable ASCII character is `\x` and two hexadecimal digits.
///
/// ```
/// assert_eq!(elfsee::spelt(b"\x1b[2J\\\xff").to_string(), r"\x1b[2J\\\xff");
/// ```
pub fn spelt(name: &[u8]) -> Spelt<'_> {
    Spelt(name)
}

/// The result of [`spelt`], for `Display`.
#[derive(Clone, Copy, Debug, PartialEq, Eq)]
pub struct Spelt<'n>(&'n [u8]);

impl fmt::Display for Spelt<'_> {
    fn fmt(&self, to: &mut fmt::Formatter<'_>) -> fmt::Result {
        for &byte in self.0 {
            match byte {
                b'\\' => to.write_str("\\\\")?,
                b' '..=b'~' => fmt::Write::write_char(to, byte.into())?,
                _ => write!(to, "\\x{byte:02x}")?,
            }
        }
        Ok(())
    }
}
