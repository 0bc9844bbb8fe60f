//! The rows of a table, one after another.

use core::cell::Cell;

use crate::error::Refused;
use crate::names::{HasName, Named, Names};
use crate::raw;

/// The number of rows that one call fetches.
const BATCH: usize = 32;

pub(crate) mod sealed {
    /// Fetches rows of one kind.
    pub trait Fetch: Copy + Default {
        /// Fetches up to `out.len()` next rows, and returns how many.
        fn fetch(file: &[u8], rows: &mut super::raw::Rows, out: &mut [Self]) -> usize;
    }

    /// Fetches rows of a kind that may be counted.
    pub trait FetchWithin: Fetch {
        /// Does the same within a budget. The second value says whether the budget ended it.
        fn fetch_within(
            file: &[u8],
            limits: &super::raw::Limits,
            asked: &mut u64,
            rows: &mut super::raw::Rows,
            out: &mut [Self],
        ) -> (usize, super::raw::End);
    }
}

use sealed::{Fetch, FetchWithin};

macro_rules! fetched {
    ($row:ty, $call:path) => {
        impl Fetch for $row {
            fn fetch(file: &[u8], rows: &mut raw::Rows, out: &mut [Self]) -> usize {
                // SAFETY: a slice's own pointer and length, a struct that is initialised, and `out`
                // and `rows`, which nothing else refers to.
                unsafe { $call(file.as_ptr(), file.len(), rows, out.as_mut_ptr(), out.len()) }
            }
        }
    };
    ($row:ty, $call:path, $within:path) => {
        fetched!($row, $call);

        impl FetchWithin for $row {
            fn fetch_within(
                file: &[u8],
                limits: &raw::Limits,
                asked: &mut u64,
                rows: &mut raw::Rows,
                out: &mut [Self],
            ) -> (usize, raw::End) {
                let mut end = raw::End::default();
                let (place, room) = (out.as_mut_ptr(), out.len());
                // SAFETY: as in `fetch`.
                let count = unsafe { $within(file.as_ptr(), file.len(), limits, asked, rows, place, room, &mut end) };
                (count, end)
            }
        }
    };
}

fetched!(raw::ShortRelocation, raw::elfsee_next_short_relocations);
fetched!(u64, raw::elfsee_next_relative_words);
fetched!(raw::Symbol, raw::elfsee_next_symbols, raw::elfsee_next_symbols_within);
fetched!(raw::Relocation, raw::elfsee_next_relocations, raw::elfsee_next_relocations_within);
fetched!(raw::Dynamic, raw::elfsee_next_dynamic, raw::elfsee_next_dynamic_within);
fetched!(raw::VersionWord, raw::elfsee_next_version_words, raw::elfsee_next_version_words_within);

/// An iterator over the rows of a table of symbols, relocation entries, dynamic entries or versions. Its rows are
/// numbers, and do not borrow from it; [`Rows::names`] and [`Rows::named`] have their names.
#[derive(Clone, Debug)]
pub struct Rows<'a, R> {
    file: &'a [u8],
    rows: raw::Rows,
    batch: [R; BATCH],
    next: usize,
    fetched: usize,
}

/// The symbols of a section.
pub type Symbols<'a> = Rows<'a, raw::Symbol>;
/// The relocation entries of a section.
pub type Relocations<'a> = Rows<'a, raw::Relocation>;
/// The dynamic entries of a section.
pub type DynamicEntries<'a> = Rows<'a, raw::Dynamic>;
/// The version words of the symbols of a section.
pub type VersionWords<'a> = Rows<'a, raw::VersionWord>;

impl<'a, R: Fetch> Rows<'a, R> {
    pub(crate) fn new(file: &'a [u8], rows: raw::Rows) -> Self {
        Rows { file, rows, batch: [R::default(); BATCH], next: 0, fetched: 0 }
    }

    /// Returns how many rows the table has, including those that the iterator has passed.
    pub fn total(&self) -> u64 {
        self.rows.count
    }

    /// Returns where the table's first row is in the file, and how many bytes a row has.
    pub fn place(&self) -> (u64, u64) {
        (self.rows.at, self.rows.entry)
    }

    /// Returns the name at an offset in the string table that goes with these rows, without its NUL. A refusal's
    /// offset is the file offset at which the name should begin.
    pub fn name(&self, offset: u64) -> Result<&'a [u8], Refused> {
        self.names().at(offset)
    }

    /// Returns the string table that goes with these rows. It borrows only from the file, so names can be read while
    /// the iterator is consumed, also by `for`.
    pub fn names(&self) -> Names<'a> {
        let strings = raw::Range { at: self.rows.strings_at, len: self.rows.strings_len };
        Names::new(self.file, strings)
    }

    /// Returns the row with an index, wherever the iterator is; `None` if the table has no such row.
    ///
    /// ```
    /// # fn main() -> Result<(), Box<dyn std::error::Error>> {
    /// let bytes = std::fs::read("/proc/self/exe")?;
    /// let file = elfsee::File::new(&bytes);
    /// let mut room = vec![0; file.room()];
    /// for (index, section) in file.sections(&mut room)? {
    ///     if section.kind == elfsee::abi::SHT_DYNSYM {
    ///         let symbols = file.symbols(index, &mut room)?.unwrap();
    ///         assert_eq!(symbols.row(0), Some(elfsee::Symbol::default()));
    ///         assert_eq!(symbols.row(symbols.total()), None);
    ///     }
    /// }
    /// # Ok(())
    /// # }
    /// ```
    pub fn row(&self, index: u64) -> Option<R> {
        let (mut rows, mut row) = (raw::Rows { index, ..self.rows }, [R::default()]);
        (R::fetch(self.file, &mut rows, &mut row) == 1).then(|| row[0])
    }
}

impl<'a, R: FetchWithin> Rows<'a, R> {
    /// Returns the rows that are left, within a budget: what each reads from the file counts in `asked`, over all
    /// tables whose rows are passed it, and those that [`File::dynamic_within`](crate::File::dynamic_within) opens.
    /// The first row that would exceed `budget` is refused, with the cause `budget`, and is the last. Names are not
    /// counted.
    ///
    /// ```
    /// # fn main() -> Result<(), Box<dyn std::error::Error>> {
    /// use std::cell::Cell;
    ///
    /// let bytes = std::fs::read("/proc/self/exe")?;
    /// let file = elfsee::File::new(&bytes);
    /// let (mut room, asked) = (vec![0; file.room()], Cell::new(0));
    /// for (index, _) in file.sections(&mut room)? {
    ///     let Some(symbols) = file.symbols(index, &mut room)? else { continue };
    ///     let total = symbols.total();
    ///     assert_eq!(symbols.clone().within(1_000_000_000, &asked).count() as u64, total);
    ///     assert!(symbols.within(0, &asked).next().map_or(true, |row| row.is_err()));
    /// }
    /// assert!(asked.get() % 24 == 0);
    /// # Ok(())
    /// # }
    /// ```
    pub fn within<'c>(self, budget: u64, asked: &'c Cell<u64>) -> Within<'a, 'c, R> {
        let passed = self.rows.index.saturating_sub((self.fetched - self.next) as u64);
        let rows = raw::Rows { index: passed, ..self.rows };
        let limits = raw::Limits { has_budget: 1, budget, ..raw::Limits::default() };
        let batch = [R::default(); BATCH];
        Within { file: self.file, rows, limits, asked, batch, next: 0, fetched: 0, refused: None, is_over: false }
    }
}

impl<'a, R: HasName> Rows<'a, R> {
    /// Returns the rows that are left, each with its name.
    ///
    /// ```
    /// # fn main() -> Result<(), Box<dyn std::error::Error>> {
    /// let bytes = std::fs::read("/proc/self/exe")?;
    /// let file = elfsee::File::new(&bytes);
    /// let mut room = vec![0; file.room()];
    /// let mut needed = Vec::new();
    /// for (index, _) in file.sections(&mut room)? {
    ///     for entry in file.dynamic(index, &mut room)?.into_iter().flat_map(|rows| rows.named()) {
    ///         let (entry, name) = entry?;
    ///         if entry.tag == elfsee::abi::DT_NEEDED {
    ///             needed.push(name);
    ///         }
    ///     }
    /// }
    /// assert!(needed.iter().any(|name| name.starts_with(b"libc.so")));
    /// # Ok(())
    /// # }
    /// ```
    pub fn named(self) -> Named<'a, R> {
        let names = self.names();
        self.named_in(names)
    }

    /// The same with another string table, which dynamic entries of a segment need.
    pub fn named_in(self, names: Names<'a>) -> Named<'a, R> {
        let passed = self.rows.index.saturating_sub((self.fetched - self.next) as u64);
        Named::new(self, names, passed)
    }
}

impl<'a, R: Fetch> Iterator for Rows<'a, R> {
    type Item = R;

    fn next(&mut self) -> Option<R> {
        if self.next == self.fetched {
            self.fetched = R::fetch(self.file, &mut self.rows, &mut self.batch);
            self.next = 0;
        }
        let row = self.batch[..self.fetched].get(self.next).copied()?;
        self.next += 1;
        Some(row)
    }
}

/// An iterator over rows within a budget, as [`Rows::within`] returns it. It ends after the row that the budget
/// refuses.
#[derive(Clone, Debug)]
pub struct Within<'a, 'c, R> {
    file: &'a [u8],
    rows: raw::Rows,
    limits: raw::Limits,
    asked: &'c Cell<u64>,
    batch: [R; BATCH],
    next: usize,
    fetched: usize,
    refused: Option<Refused>,
    is_over: bool,
}

impl<R: FetchWithin> Iterator for Within<'_, '_, R> {
    type Item = Result<R, Refused>;

    fn next(&mut self) -> Option<Self::Item> {
        if self.next == self.fetched && !self.is_over {
            let mut asked = self.asked.get();
            let (count, end) = R::fetch_within(self.file, &self.limits, &mut asked, &mut self.rows, &mut self.batch);
            self.asked.set(asked);
            (self.next, self.fetched) = (0, count);
            self.is_over = count < BATCH;
            self.refused = (end.cause != 0).then(|| Refused::of(&end));
        }
        if self.next == self.fetched {
            return self.refused.take().map(Err);
        }
        self.next += 1;
        Some(Ok(self.batch[self.next - 1]))
    }
}

/// Returns the name at an offset in some bytes of a file.
pub(crate) fn name_in<'a>(file: &'a [u8], strings: &raw::Range, offset: u64) -> Result<&'a [u8], Refused> {
    let (mut name, mut end) = (raw::Range::default(), raw::End::default());
    // SAFETY: a slice's own pointer and length, and structs that are initialised and nobody else's.
    let status = unsafe { raw::elfsee_name(file.as_ptr(), file.len(), strings, offset, &mut name, &mut end) };
    match status {
        raw::OK => Ok(bytes_of(file, name.at, name.len)),
        _ => Err(Refused::of(&end)),
    }
}

/// Returns bytes of a file that a call gave; `None` if the file is shorter.
pub(crate) fn bytes_of(file: &[u8], at: u64, len: u64) -> &[u8] {
    let end = at.checked_add(len).unwrap_or(u64::MAX);
    match (usize::try_from(at), usize::try_from(end)) {
        (Ok(at), Ok(end)) => file.get(at..end).unwrap_or(&[]),
        _ => &[],
    }
}
