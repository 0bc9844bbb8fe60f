//! The members of an archive, one after another.

use crate::error::Refused;
use crate::raw;
use crate::rows::bytes_of;

/// A member of an archive.
#[derive(Clone, Copy, Debug, PartialEq, Eq)]
pub struct Member<'a> {
    /// Its name, or the first 4,096 bytes of it. The index of symbols has the name `/`, the table of
    /// names `//`.
    pub name: &'a [u8],
    /// Whether its name has more bytes.
    pub is_cut: bool,
    /// Its data, which may be a [`File`](crate::File) of its own; it begins after the name if that is at the
    /// beginning of the data.
    pub content: &'a [u8],
    /// The offset in the archive of its header.
    pub at: u64,
    /// The offset in the archive of its data.
    pub content_at: u64,
}

/// An iterator over the members of an archive, which ends after the first refusal.
#[derive(Clone, Debug)]
pub struct Members<'a> {
    file: &'a [u8],
    members: raw::Members,
    ended: bool,
}

impl<'a> Members<'a> {
    pub(crate) fn new(file: &'a [u8], members: raw::Members) -> Self {
        Members { file, members, ended: false }
    }
}

impl<'a> Iterator for Members<'a> {
    type Item = Result<Member<'a>, Refused>;

    fn next(&mut self) -> Option<Self::Item> {
        if self.ended {
            return None;
        }
        let (mut member, mut end) = (raw::Member::default(), raw::End::default());
        let (file, length) = (self.file.as_ptr(), self.file.len());
        // SAFETY: a slice's own pointer and length, and structs that are initialised and nobody else's.
        let status =
            unsafe { raw::elfsee_next_member(file, length, &mut self.members, &mut member, &mut end) };
        self.ended = status != raw::OK;
        match status {
            raw::OK => Some(Ok(Member {
                name: bytes_of(self.file, member.name.at, member.name.len),
                is_cut: member.is_cut != 0,
                content: bytes_of(self.file, member.content.at, member.content.len),
                at: member.at,
                content_at: member.content.at,
            })),
            raw::ABSENT => None,
            _ => Some(Err(Refused::of(&end))),
        }
    }
}
