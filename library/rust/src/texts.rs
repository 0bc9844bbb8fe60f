//! Names of which rows are listed.

use crate::raw;
use core::cmp::Ordering;
use core::fmt;
use core::marker::PhantomData;

/// A name of which rows are listed by [`File::show_names`](crate::File::show_names): 1 to 4,096 bytes without a NUL.
/// They are ordered by their bytes.
#[repr(transparent)]
#[derive(Clone, Copy)]
pub struct Text<'n>(raw::Text, PhantomData<&'n [u8]>);

impl<'n> Text<'n> {
    /// Creates a name from its bytes.
    pub fn new(bytes: &'n [u8]) -> Text<'n> {
        Text(raw::Text { bytes: bytes.as_ptr(), len: bytes.len() }, PhantomData)
    }

    /// Returns its bytes.
    pub fn bytes(&self) -> &'n [u8] {
        // SAFETY: they are the pointer and the length of a slice that is borrowed for as long.
        unsafe { core::slice::from_raw_parts(self.0.bytes, self.0.len) }
    }
}

// SAFETY: it is a slice of bytes, which any thread may read.
unsafe impl Send for Text<'_> {}
// SAFETY: as above.
unsafe impl Sync for Text<'_> {}

impl fmt::Debug for Text<'_> {
    fn fmt(&self, to: &mut fmt::Formatter<'_>) -> fmt::Result {
        write!(to, "{}", crate::spelt(self.bytes()))
    }
}

impl PartialEq for Text<'_> {
    fn eq(&self, other: &Self) -> bool {
        self.bytes() == other.bytes()
    }
}

impl Eq for Text<'_> {}

impl PartialOrd for Text<'_> {
    fn partial_cmp(&self, other: &Self) -> Option<Ordering> {
        Some(self.cmp(other))
    }
}

impl Ord for Text<'_> {
    fn cmp(&self, other: &Self) -> Ordering {
        self.bytes().cmp(other.bytes())
    }
}

/// Returns names in the form of C.
pub(crate) fn lent(names: &[Text<'_>]) -> *const raw::Text {
    // A `Text` is a `raw::Text` and nothing else.
    names.as_ptr().cast::<raw::Text>()
}
