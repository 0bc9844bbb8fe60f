//! Layouts of any size, and what they lack.

use crate::error::Error;
use crate::raw;
use core::cmp::Ordering;
use core::fmt;
use core::marker::PhantomData;

/// The address of a section in a [`Layout`].
pub use crate::raw::LentSection as SectionAddress;

impl raw::LentSection {
    /// Gives the address of the section with an index.
    pub fn new(index: u16, address: u64) -> SectionAddress {
        raw::LentSection { index, address }
    }
}

/// The address of a name in a [`Layout`]. They are ordered by the bytes of the names.
#[repr(transparent)]
#[derive(Clone, Copy, Debug)]
pub struct NameAddress<'n>(raw::LentName, PhantomData<&'n [u8]>);

impl<'n> NameAddress<'n> {
    /// Gives the address of a name of 1 to 255 bytes without a NUL.
    pub fn new(name: &'n [u8], address: u64) -> NameAddress<'n> {
        NameAddress(raw::LentName { name: name.as_ptr(), name_len: name.len(), address }, PhantomData)
    }

    /// Returns the name.
    pub fn name(&self) -> &'n [u8] {
        // SAFETY: they are the pointer and the length of a slice that is borrowed for as long.
        unsafe { core::slice::from_raw_parts(self.0.name, self.0.name_len) }
    }

    /// Returns the address.
    pub fn address(&self) -> u64 {
        self.0.address
    }
}

impl PartialEq for NameAddress<'_> {
    fn eq(&self, other: &Self) -> bool {
        self.cmp(other) == Ordering::Equal
    }
}

impl Eq for NameAddress<'_> {}

impl PartialOrd for NameAddress<'_> {
    fn partial_cmp(&self, other: &Self) -> Option<Ordering> {
        Some(self.cmp(other))
    }
}

impl Ord for NameAddress<'_> {
    fn cmp(&self, other: &Self) -> Ordering {
        (self.name(), self.address()).cmp(&(other.name(), other.address()))
    }
}

/// Addresses for [`File::apply_lent`](crate::File::apply_lent), any number of them: each list in ascending order,
/// sections by their indexes and names by their bytes, without duplicates. `sort` puts a list into that order.
#[derive(Clone, Copy, Debug, Default)]
pub struct Layout<'n> {
    /// The addresses of sections.
    pub sections: &'n [SectionAddress],
    /// Those of symbols that the file does not define.
    pub definitions: &'n [NameAddress<'n>],
    /// Those of symbols' entries in the procedure linkage table.
    pub linkage: &'n [NameAddress<'n>],
    /// Those of symbols' entries in the global offset table.
    pub table: &'n [NameAddress<'n>],
    /// Those of the entries there of symbols' offsets from the thread pointer.
    pub thread: &'n [NameAddress<'n>],
}

/// Returns a list of names in the form of C.
fn lent(names: &[NameAddress<'_>]) -> *const raw::LentName {
    // A `NameAddress` is a `raw::LentName` and nothing else.
    names.as_ptr().cast::<raw::LentName>()
}

impl Layout<'_> {
    pub(crate) fn raw(&self) -> raw::Layout {
        raw::Layout {
            sections: self.sections.as_ptr(),
            sections_len: self.sections.len(),
            definitions: lent(self.definitions),
            definitions_len: self.definitions.len(),
            linkage: lent(self.linkage),
            linkage_len: self.linkage.len(),
            table: lent(self.table),
            table_len: self.table.len(),
            thread: lent(self.thread),
            thread_len: self.thread.len(),
        }
    }
}

/// What a layout lacks if a section was refused in it.
#[derive(Clone, Copy, PartialEq, Eq)]
pub struct Missing(raw::Missing);

impl Missing {
    /// Returns what the call said is missing; `None` if no address would help.
    pub(crate) fn of(told: raw::Missing) -> Option<Missing> {
        (told.helpful != 0).then_some(Missing(told))
    }

    /// Returns the index of the section that needs an address; `None` if a name does.
    pub fn section(&self) -> Option<u16> {
        self.helps(raw::SECTION).then_some(self.0.section as u16)
    }

    /// Returns whether a definition of the name would help.
    pub fn definition_helps(&self) -> bool {
        self.helps(raw::DEFINE)
    }

    /// Returns whether an entry of the name in the procedure linkage table would help.
    pub fn linkage_helps(&self) -> bool {
        self.helps(raw::ENTRY)
    }

    /// Returns whether an entry of the name in the global offset table would help.
    pub fn table_helps(&self) -> bool {
        self.helps(raw::TABLE)
    }

    /// Returns whether an entry there of its offset from the thread pointer would help.
    pub fn thread_helps(&self) -> bool {
        self.helps(raw::THREAD)
    }

    fn helps(&self, kind: u32) -> bool {
        self.0.helpful & (1 << kind) != 0
    }

    /// Returns the type of the relocation entry that is refused.
    pub fn relocation(&self) -> u32 {
        self.0.relocation
    }

    /// Returns the name of its symbol, or the first 255 bytes of it. No item can have an empty name.
    pub fn name(&self) -> &[u8] {
        self.0.name.get(..self.0.name_len as usize).unwrap_or(&[])
    }

    /// Returns whether the name has more bytes: then no item can have it.
    pub fn is_cut(&self) -> bool {
        self.0.is_cut != 0
    }
}

impl fmt::Debug for Missing {
    fn fmt(&self, to: &mut fmt::Formatter<'_>) -> fmt::Result {
        let name = crate::spelt(self.name());
        write!(to, "Missing {{ helpful: {}, section: {:?}, name: {name} }}", self.0.helpful, self.section())
    }
}

/// Why a section is not written, and what its layout lacks.
#[derive(Clone, Copy, Debug, PartialEq, Eq)]
pub struct Unapplied {
    /// Why.
    pub error: Error,
    /// What is missing; `None` if no address would help, or the budget is too small to find that out.
    pub missing: Option<Missing>,
}

impl fmt::Display for Unapplied {
    fn fmt(&self, to: &mut fmt::Formatter<'_>) -> fmt::Result {
        self.error.fmt(to)
    }
}

impl core::error::Error for Unapplied {}
