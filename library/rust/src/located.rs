//! The relocations that dynamic entries locate.

use crate::error::{Cause, Refused};
use crate::raw;
use crate::rows::{Relocations, Rows};

/// A table of relocations that dynamic entries locate; a loader applies them in this order.
#[derive(Clone, Copy, Debug, PartialEq, Eq, PartialOrd, Ord, Hash)]
#[repr(u32)]
pub enum LocatedTable {
    /// Relative relocations, at DT_RELR.
    Relr = raw::AT_RELR,
    /// Entries without addends, at DT_REL.
    Rel = raw::AT_REL,
    /// Entries with addends, at DT_RELA.
    Rela = raw::AT_RELA,
    /// Those of the procedure linkage table, at DT_JMPREL, with or without addends.
    Jmprel = raw::AT_JMPREL,
}

/// The relocation entries without addends of a table.
pub type ShortRelocations<'a> = Rows<'a, raw::ShortRelocation>;

/// The rows of a table that dynamic entries locate. The symbols that they refer to are those of
/// [`File::hashed_symbols`](crate::File::hashed_symbols) by segments.
#[derive(Clone, Debug)]
pub enum LocatedRows<'a> {
    /// Relative relocations.
    Relative(RelativeAddresses<'a>),
    /// Entries without addends.
    Short(ShortRelocations<'a>),
    /// Entries with addends.
    WithAddends(Relocations<'a>),
}

impl<'a> LocatedRows<'a> {
    pub(crate) fn new(file: &'a [u8], rows: raw::Rows) -> LocatedRows<'a> {
        match rows.entry {
            8 => LocatedRows::Relative(RelativeAddresses::new(Rows::new(file, rows), rows.at)),
            16 => LocatedRows::Short(Rows::new(file, rows)),
            _ => LocatedRows::WithAddends(Rows::new(file, rows)),
        }
    }
}

/// An iterator over the addresses of relative relocations. It ends after a word that is refused, with the cause `relr`:
/// one of bits that no address precedes, or that leads to an address above 2^64 - 8.
#[derive(Clone, Debug)]
pub struct RelativeAddresses<'a> {
    words: Rows<'a, u64>,
    // Where the next word is.
    at: u64,
    // The address of the lowest bit that is left, and the bits.
    address: u128,
    bits: u64,
    // The first address that the words so far do not cover.
    next: Option<u128>,
    ended: bool,
}

impl<'a> RelativeAddresses<'a> {
    fn new(words: Rows<'a, u64>, at: u64) -> Self {
        RelativeAddresses { words, at, address: 0, bits: 0, next: None, ended: false }
    }

    /// Takes the next word: its address, and the bits from there.
    fn take(&mut self) -> Option<Result<(), Refused>> {
        let word = self.words.next()?;
        let first = if word & 1 == 0 { Some(u128::from(word)) } else { self.next };
        let Some(first) = first else { return Some(Err(self.refused())) };
        self.address = first;
        self.bits = if word & 1 == 0 { 1 } else { word >> 1 };
        self.next = Some(first + if word & 1 == 0 { 8 } else { 504 });
        self.at += 8;
        Some(Ok(()))
    }

    fn refused(&mut self) -> Refused {
        self.ended = true;
        Refused { cause: Cause::Relr, at: self.at }
    }
}

impl Iterator for RelativeAddresses<'_> {
    type Item = Result<u64, Refused>;

    fn next(&mut self) -> Option<Self::Item> {
        while !self.ended && self.bits == 0 {
            if let Err(refused) = self.take()? {
                return Some(Err(refused));
            }
        }
        if self.ended {
            return None;
        }
        let passed = self.bits.trailing_zeros();
        let address = self.address + 8 * u128::from(passed);
        self.address = address + 8;
        self.bits = self.bits.checked_shr(passed + 1).unwrap_or(0);
        if address > u128::from(u64::MAX - 7) {
            self.at -= 8;
            return Some(Err(self.refused()));
        }
        Some(Ok(address as u64))
    }
}
