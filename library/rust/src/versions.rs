//! The symbol versions of a file: definitions and needs, one after another.

use crate::error::Refused;
use crate::raw;
use crate::rows::name_in;

/// The type of a record of symbol versions.
#[derive(Clone, Copy, Debug, PartialEq, Eq, Hash)]
pub enum VersionKind {
    /// A version that the file defines.
    Definition,
    /// A file of which it needs versions.
    File,
    /// A version that it needs of the preceding file.
    Need,
}

/// A record of version definitions or needs (LSB, Symbol Versioning). A needed file has no number, no flags and no
/// hash: these are 0.
#[derive(Clone, Copy, Debug, PartialEq, Eq)]
pub struct VersionRecord<'a> {
    /// Its type.
    pub kind: VersionKind,
    /// Its name.
    pub name: &'a [u8],
    /// Its number, below 32,768.
    pub number: u16,
    /// Whether a name alone does not find it.
    pub is_hidden: bool,
    /// Its flags; a definition with the flag 1 names the file and no version.
    pub flags: u16,
    /// The hash of its name.
    pub hash: u32,
    /// Its file offset.
    pub at: u64,
}

impl VersionRecord<'_> {
    /// Returns whether it names the version that has its number.
    pub fn names_version(&self) -> bool {
        match self.kind {
            VersionKind::Definition => self.flags & 1 == 0,
            VersionKind::File => false,
            VersionKind::Need => true,
        }
    }
}

/// An iterator over the records of a section, which ends after the first refusal.
#[derive(Clone, Debug)]
pub struct VersionRecords<'a> {
    file: &'a [u8],
    records: raw::VersionRecords,
    ended: bool,
}

impl<'a> VersionRecords<'a> {
    pub(crate) fn new(file: &'a [u8], records: raw::VersionRecords) -> Self {
        VersionRecords { file, records, ended: false }
    }

    /// Returns a record with its name.
    fn named(&self, row: &raw::VersionRecord) -> Result<VersionRecord<'a>, Refused> {
        let strings = raw::Range { at: self.records.strings_at, len: self.records.strings_len };
        let name = name_in(self.file, &strings, row.name.into());
        let name = name.map_err(|refused| Refused { at: row.named_at, ..refused })?;
        Ok(VersionRecord {
            kind: match row.kind {
                raw::DEFINITION => VersionKind::Definition,
                raw::FILE => VersionKind::File,
                _ => VersionKind::Need,
            },
            name,
            number: row.number & 32_767,
            is_hidden: row.number > 32_767,
            flags: row.flags,
            hash: row.hash,
            at: row.at,
        })
    }
}

impl<'a> Iterator for VersionRecords<'a> {
    type Item = Result<VersionRecord<'a>, Refused>;

    fn next(&mut self) -> Option<Self::Item> {
        if self.ended {
            return None;
        }
        let (mut row, mut end) = (raw::VersionRecord::default(), raw::End::default());
        let (file, length) = (self.file.as_ptr(), self.file.len());
        // SAFETY: a slice's own pointer and length, and structs that are initialised and nobody else's.
        let status =
            unsafe { raw::elfsee_next_version_record(file, length, &mut self.records, &mut row, &mut end) };
        let found = match status {
            raw::OK => Some(self.named(&row)),
            raw::ABSENT => None,
            _ => Some(Err(Refused::of(&end))),
        };
        self.ended = !matches!(found, Some(Ok(_)));
        found
    }
}
