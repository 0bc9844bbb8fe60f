//! The notes of a section or of a segment, one after another.

use crate::error::Refused;
use crate::raw;
use crate::rows::bytes_of;

/// A note (gABI, Note Section).
#[derive(Clone, Copy, Debug, PartialEq, Eq)]
pub struct Note<'a> {
    /// Its name as it is in the file, with any NUL.
    pub name: &'a [u8],
    /// Its descriptor.
    pub descriptor: &'a [u8],
    /// Its type; the name decides what it means.
    pub kind: u32,
    /// The file offset of its first byte.
    pub at: u64,
}

/// An iterator over the notes that a header describes, which ends after the first refusal.
#[derive(Clone, Debug)]
pub struct Notes<'a> {
    file: &'a [u8],
    notes: raw::Notes,
    ended: bool,
}

impl<'a> Notes<'a> {
    pub(crate) fn new(file: &'a [u8], notes: raw::Notes) -> Self {
        Notes { file, notes, ended: false }
    }
}

impl<'a> Iterator for Notes<'a> {
    type Item = Result<Note<'a>, Refused>;

    fn next(&mut self) -> Option<Self::Item> {
        if self.ended {
            return None;
        }
        let (mut note, mut end) = (raw::Note::default(), raw::End::default());
        let (file, length) = (self.file.as_ptr(), self.file.len());
        // SAFETY: a slice's own pointer and length, and structs that are initialised and nobody else's.
        let status = unsafe { raw::elfsee_next_note(file, length, &mut self.notes, &mut note, &mut end) };
        self.ended = status != raw::OK;
        match status {
            raw::OK => Some(Ok(Note {
                name: bytes_of(self.file, note.name_at, note.namesz.into()),
                descriptor: bytes_of(self.file, note.desc_at, note.descsz.into()),
                kind: note.kind,
                at: note.at,
            })),
            raw::ABSENT => None,
            _ => Some(Err(Refused::of(&end))),
        }
    }
}
