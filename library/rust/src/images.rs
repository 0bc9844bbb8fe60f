//! What the image of a segment depends on besides the file, and what it lacks.

use crate::error::Cause;
use crate::raw;
use core::marker::PhantomData;

/// A number that an image depends on, in [`ImageItems`]. They are ordered as a list of them must be.
pub use crate::raw::ImageItem;

impl raw::ImageItem {
    /// Gives the load address: an address in memory less that in the file.
    pub fn base(address: u64) -> ImageItem {
        ImageItem { kind: raw::IMAGE_BASE, key: 0, value: address }
    }

    /// Gives the first word of a static TLS descriptor.
    pub fn descriptor(word: u64) -> ImageItem {
        ImageItem { kind: raw::IMAGE_DESCRIPTOR, key: 0, value: word }
    }

    /// Gives the address that the dynamic symbol of an index is bound to.
    pub fn symbol(index: u32, address: u64) -> ImageItem {
        ImageItem { kind: raw::IMAGE_SYMBOL, key: index.into(), value: address }
    }

    /// Gives the address that it is bound to for calls, if that is another.
    pub fn call(index: u32, address: u64) -> ImageItem {
        ImageItem { kind: raw::IMAGE_CALL, key: index.into(), value: address }
    }

    /// Gives the module id of the object that it is bound in; of index 0, that of this object itself.
    pub fn module(index: u32, id: u64) -> ImageItem {
        ImageItem { kind: raw::IMAGE_MODULE, key: index.into(), value: id }
    }

    /// Gives the value that the symbol has in that object.
    pub fn value(index: u32, value: u64) -> ImageItem {
        ImageItem { kind: raw::IMAGE_VALUE, key: index.into(), value }
    }

    /// Gives its offset from the thread pointer; of index 0, that of this object's TLS block.
    pub fn offset(index: u32, offset: u64) -> ImageItem {
        ImageItem { kind: raw::IMAGE_OFFSET, key: index.into(), value: offset }
    }

    /// Gives what the resolver at an address of the file answers.
    pub fn resolver(address: u64, answer: u64) -> ImageItem {
        ImageItem { kind: raw::IMAGE_RESOLVER, key: address, value: answer }
    }
}

/// The bytes of an object that a program copies, in [`ImageItems`].
#[repr(transparent)]
#[derive(Clone, Copy, Debug)]
pub struct CopiedObject<'n>(raw::Copied, PhantomData<&'n [u8]>);

impl<'n> CopiedObject<'n> {
    /// Gives the bytes of the object that the dynamic symbol of an index is bound to.
    pub fn new(index: u32, bytes: &'n [u8]) -> CopiedObject<'n> {
        CopiedObject(raw::Copied { index, digits: 0, bytes: bytes.as_ptr(), bytes_len: bytes.len() }, PhantomData)
    }

    /// Returns the index of the symbol, by which a list of them is sorted.
    pub fn index(&self) -> u32 {
        self.0.index
    }
}

/// What an image depends on besides the file, for [`File::image`](crate::File::image): lists in ascending order,
/// without duplicates. `sort` puts the numbers into that order.
#[derive(Clone, Copy, Debug, Default)]
pub struct ImageItems<'n> {
    /// The numbers.
    pub numbers: &'n [ImageItem],
    /// The bytes of copied objects.
    pub copies: &'n [CopiedObject<'n>],
    /// Whether an entry that lacks an item changes nothing, and a symbol that another object may define lacks its item
    /// also if it is weak, or defined here; otherwise the image is refused.
    pub partial: bool,
}

impl ImageItems<'_> {
    pub(crate) fn raw(&self) -> raw::ImageItems {
        raw::ImageItems {
            numbers: self.numbers.as_ptr(),
            numbers_len: self.numbers.len(),
            // A `CopiedObject` is a `raw::Copied` and nothing else.
            copies: self.copies.as_ptr().cast::<raw::Copied>(),
            copies_len: self.copies.len(),
            partial: self.partial.into(),
            none: 0,
        }
    }
}

impl raw::Lacking {
    /// Returns what it lacks: [`Cause::Undefined`] for an item of its symbol, [`Cause::Unplaced`] for one of the file.
    pub fn lacks(&self) -> Cause {
        Cause::of_number(self.cause)
    }
}
