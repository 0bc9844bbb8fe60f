//! The section headers and the program headers, one after another.

use crate::error::Refused;
use crate::names::Names;
use crate::raw;
use crate::File;

/// An iterator over the section headers in their order, each with its index, including section 0.
#[derive(Clone, Debug)]
pub struct Sections<'a> {
    file: File<'a>,
    names: Option<Names<'a>>,
    first: u64,
    next: u16,
}

impl<'a> Sections<'a> {
    pub(crate) fn new(file: File<'a>, names: Option<Names<'a>>, first: u64) -> Self {
        Sections { file, names, first, next: 0 }
    }

    /// Returns the string table of the section names; `None` if the file has none.
    pub fn names(&self) -> Option<Names<'a>> {
        self.names
    }

    /// Returns the same sections, each with its name. Names are empty if the file has no string table of them.
    pub fn named(self) -> NamedSections<'a> {
        NamedSections { sections: self, ended: false }
    }
}

impl Iterator for Sections<'_> {
    type Item = (u16, raw::Section);

    fn next(&mut self) -> Option<Self::Item> {
        let (index, row) = (self.next, self.file.section(self.next).ok()??);
        self.next = index.checked_add(1)?;
        Some((index, row))
    }
}

/// An iterator over the section headers, each with its index and its name. It ends after the first refusal, which has
/// the place of the section header.
#[derive(Clone, Debug)]
pub struct NamedSections<'a> {
    sections: Sections<'a>,
    ended: bool,
}

impl<'a> Iterator for NamedSections<'a> {
    type Item = Result<(u16, raw::Section, &'a [u8]), Refused>;

    fn next(&mut self) -> Option<Self::Item> {
        if self.ended {
            return None;
        }
        let (index, row) = self.sections.next()?;
        let at = self.sections.first.saturating_add(64 * u64::from(index));
        let name = self.sections.names.map_or(Ok(&[][..]), |names| names.of_row(row.name.into(), at));
        self.ended = name.is_err();
        Some(name.map(|name| (index, row, name)))
    }
}

/// An iterator over the program headers in their order, each with its index.
#[derive(Clone, Debug)]
pub struct Segments<'a> {
    file: File<'a>,
    next: u16,
}

impl<'a> Segments<'a> {
    pub(crate) fn new(file: File<'a>) -> Self {
        Segments { file, next: 0 }
    }
}

impl Iterator for Segments<'_> {
    type Item = (u16, raw::Segment);

    fn next(&mut self) -> Option<Self::Item> {
        let (index, row) = (self.next, self.file.segment(self.next).ok()??);
        self.next = index.checked_add(1)?;
        Some((index, row))
    }
}
