//! Lists ELF64 files, looks up names in them, applies relocations and reads their rows, for any input.
//!
//! A file is a slice of bytes, and so is all memory that a call needs: nothing is allocated, and the
//! crate needs no `std`. Each call terminates, reads nothing outside the file and writes nothing
//! outside the caller's buffers; the library's own documents say what is proved of it.
//!
//! ```
//! # fn main() -> Result<(), elfsee::Error> {
//! let mut bytes = [0; 64];
//! bytes[..7].copy_from_slice(b"\x7fELF\x02\x01\x01");
//! bytes[16] = 1;
//!
//! let file = elfsee::File::new(&bytes);
//! assert_eq!(file.header()?.kind, 1);
//!
//! let (mut room, mut out) = ([0; 64], [0; 4096]);
//! let listing = file.show(elfsee::ALL, &mut room, &mut out)?;
//! assert!(listing.text.starts_with("H REL"));
//!
//! let refused = elfsee::File::new(b"no ELF file, but as long as its file header, which has 64 bytes.");
//! assert_eq!(refused.header().unwrap_err().cause, elfsee::Cause::NotElf);
//! # Ok(())
//! # }
//! ```
//!
//! Room has the headers of a file while a call runs: [`File::room`] returns how many bytes of it a file
//! needs. A file that changes while it is read, as a mapped file may, is not a slice: read such a
//! file into memory first.

//! The library that is linked is the one that the crate's build script finds: in the directory that the
//! environment variable `ELFSEE_LIBRARY_DIR` names, otherwise where the repository builds it, otherwise where
//! pkg-config says.

#![no_std]
#![warn(missing_docs)]

pub mod abi;
mod error;
mod headers;
mod images;
mod layouts;
mod located;
mod members;
mod names;
mod notes;
pub mod raw;
mod rows;
mod texts;
mod versions;

pub use error::{Cause, Error, Refused};
pub use headers::{NamedSections, Sections, Segments};
pub use images::{CopiedObject, ImageItem, ImageItems};
pub use layouts::{Layout, Missing, NameAddress, SectionAddress, Unapplied};
pub use located::{LocatedRows, LocatedTable, RelativeAddresses, ShortRelocations};
pub use members::{Member, Members};
pub use names::{spelt, HasName, Named, Names, Spelt};
pub use notes::{Note, Notes};
pub use raw::{Dynamic, Header, Lacking, Range, Relocation, Section, Segment, ShortRelocation, Symbol, VersionWord};
pub use rows::{DynamicEntries, Relocations, Rows, Symbols, VersionWords, Within};
pub use texts::Text;
pub use versions::{VersionKind, VersionRecord, VersionRecords};

use core::cell::Cell;
use core::marker::PhantomData;

/// The part of a listing that is the file header.
pub const HEADER: u16 = 1;
/// The section headers.
pub const SECTIONS: u16 = 2;
/// The program headers.
pub const SEGMENTS: u16 = 4;
/// The symbols.
pub const SYMBOLS: u16 = 8;
/// The relocation entries.
pub const RELOCS: u16 = 16;
/// The notes.
pub const NOTES: u16 = 32;
/// The dynamic entries.
pub const DYNAMIC: u16 = 64;
/// All parts of a listing that the standards define.
pub const ALL: u16 = 127;
/// The symbol versions, only of listings with the names defined by GNU.
pub const VERSIONS: u16 = 128;

/// The style of a listing; the default is that of [`File::show`].
#[derive(Clone, Copy, Debug, Default, PartialEq, Eq)]
pub struct Style {
    /// Whether numbers defined by GNU have names, and [`VERSIONS`] is a part.
    pub gnu: bool,
    /// Whether tables are found by the program headers even if there are section headers.
    pub by_segments: bool,
    /// Whether each line is a JSON object.
    pub json: bool,
    /// Whether the version of a symbol follows its name; only with the names defined by GNU.
    pub versions: bool,
}

impl Style {
    fn flags(self) -> u16 {
        let flags = u32::from(self.by_segments) * raw::BY_SEGMENTS
            + u32::from(self.gnu) * raw::GNU
            + u32::from(self.json) * raw::JSON
            + u32::from(self.versions) * raw::NAME_VERSIONS;
        flags as u16
    }
}

impl raw::Symbol {
    /// Returns its type, such as STT_FUNC (gABI, Symbol Table).
    pub fn kind(&self) -> u8 {
        self.info & 15
    }

    /// Returns its binding, such as STB_GLOBAL.
    pub fn binding(&self) -> u8 {
        self.info >> 4
    }

    /// Returns its visibility, such as STV_HIDDEN.
    pub fn visibility(&self) -> u8 {
        self.other & 3
    }
}

impl raw::ShortRelocation {
    /// Returns the index of the symbol, the upper half of `info`.
    pub fn symbol(&self) -> u32 {
        (self.info >> 32) as u32
    }

    /// Returns the relocation type, the lower half of `info`.
    pub fn kind(&self) -> u32 {
        self.info as u32
    }
}

impl raw::Relocation {
    /// Returns the index of its symbol in the linked table; 0 for none (gABI, Relocation).
    pub fn symbol(&self) -> u32 {
        (self.info >> 32) as u32
    }

    /// Returns its type, such as R_X86_64_PC32.
    pub fn kind(&self) -> u32 {
        self.info as u32
    }
}

/// How much may be read and shown.
#[derive(Clone, Copy, Debug, PartialEq, Eq)]
pub struct Limits {
    /// Maximum number of section headers, and of program headers: 1 to 65,279.
    pub headers: u16,
    /// Bytes of a name that a listing shows: 1 to 4,096.
    pub name: u16,
    /// How many bytes of the file a listing, a lookup or an applied section may read, and rows that are read
    /// within it, if there is a limit.
    pub budget: Option<u64>,
}

impl Default for Limits {
    /// 4,096 headers, 256 bytes of a name, no budget.
    fn default() -> Limits {
        Limits { headers: 4096, name: 256, budget: None }
    }
}

/// A listing that was written into the caller's buffer.
#[derive(Clone, Copy, Debug, PartialEq, Eq)]
pub struct Listing<'o> {
    /// Its lines, in ASCII.
    pub text: &'o str,
    /// The refusal in its last line, if there is one.
    pub refused: Option<Refused>,
    /// Bytes of the file that were read.
    pub asked: u64,
}

/// What a lookup found.
#[derive(Clone, Copy, Debug, PartialEq, Eq)]
pub struct Lookup {
    /// The symbol with its index and its section of symbols; `None` if there is none.
    pub found: Option<(Symbol, u32, u16)>,
    /// Names that were compared.
    pub steps: u32,
}

/// The query of a loader's lookup.
#[derive(Clone, Copy, Debug, Default, PartialEq, Eq)]
pub struct Wanted<'n> {
    /// The name of the symbol, of at most 4,096 bytes without a NUL.
    pub name: &'n [u8],
    /// The name of its version, of 1 to 4,096 bytes without a NUL; `None` finds a version that is not hidden.
    pub version: Option<&'n [u8]>,
    /// Whether the version must be the symbol's default version.
    pub default_only: bool,
    /// Whether the lookup uses the program headers, even if there are section headers.
    pub by_segments: bool,
}

impl<'n> Wanted<'n> {
    /// Creates a query for a name alone.
    pub fn name(name: &'n [u8]) -> Wanted<'n> {
        Wanted { name, ..Wanted::default() }
    }

    /// Creates a query for a name with a version.
    pub fn versioned(name: &'n [u8], version: &'n [u8]) -> Wanted<'n> {
        Wanted { name, version: Some(version), ..Wanted::default() }
    }
}

/// The version of a symbol that a loader's lookup found.
#[derive(Clone, Copy, Debug, PartialEq, Eq)]
pub struct SymbolVersion<'a> {
    /// Its name, or the first 256 bytes of it; empty if its number is 0 or 1.
    pub name: &'a [u8],
    /// Whether the name has more bytes.
    pub is_cut: bool,
    /// Its number, below 32,768.
    pub number: u16,
    /// Whether a name alone does not find it.
    pub is_hidden: bool,
    /// The index of the section of symbol versions, or of the program header of the dynamic entries.
    pub table: u16,
}

/// A symbol that a loader's lookup found.
#[derive(Clone, Copy, Debug, PartialEq, Eq)]
pub struct FoundSymbol<'a> {
    /// The symbol.
    pub symbol: Symbol,
    /// Its index among the symbols.
    pub index: u64,
    /// The index of the section of symbols, or of the program header of the dynamic entries.
    pub table: u16,
    /// Its version; `None` if the file has no versions of symbols.
    pub version: Option<SymbolVersion<'a>>,
}

/// What a loader's lookup found.
#[derive(Clone, Copy, Debug, PartialEq, Eq)]
pub struct Resolved<'a> {
    /// The symbol; `None` if no symbol matches.
    pub found: Option<FoundSymbol<'a>>,
    /// Symbols that were tried.
    pub tried: u64,
}

/// An address for [`File::apply`].
#[repr(transparent)]
#[derive(Clone, Copy, Debug)]
pub struct Item<'n>(raw::Item, PhantomData<&'n [u8]>);

impl<'n> Item<'n> {
    /// Gives the address of a section.
    pub fn section(index: u16, address: u64) -> Item<'static> {
        Item::new(raw::SECTION, b"", index, address)
    }

    /// Gives the address of a symbol that the file does not define. Its name has 1 to 255 bytes, no NUL.
    pub fn define(name: &'n [u8], address: u64) -> Item<'n> {
        Item::new(raw::DEFINE, name, 0, address)
    }

    /// Gives the address of a symbol's entry in the procedure linkage table.
    pub fn entry(name: &'n [u8], address: u64) -> Item<'n> {
        Item::new(raw::ENTRY, name, 0, address)
    }

    /// Gives the address of a symbol's entry in the global offset table.
    pub fn table(name: &'n [u8], address: u64) -> Item<'n> {
        Item::new(raw::TABLE, name, 0, address)
    }

    /// Gives the address of the entry in the global offset table of a symbol's offset from the thread pointer.
    pub fn thread(name: &'n [u8], address: u64) -> Item<'n> {
        Item::new(raw::THREAD, name, 0, address)
    }

    fn new(kind: u32, name: &'n [u8], index: u16, address: u64) -> Item<'n> {
        let item =
            raw::Item { address, name: name.as_ptr(), name_len: name.len(), kind, index: index.into() };
        Item(item, PhantomData)
    }
}

/// A file in memory, and the limits of its calls.
#[derive(Clone, Copy, Debug)]
pub struct File<'a> {
    bytes: &'a [u8],
    limits: raw::Limits,
}

impl<'a> File<'a> {
    /// Creates a file with the limits of [`Limits::default`].
    pub fn new(bytes: &'a [u8]) -> File<'a> {
        File::with_limits(bytes, Limits::default())
    }

    /// Creates a file with limits. With one outside its range each call that needs it fails with [`Error::BadCall`].
    pub fn with_limits(bytes: &'a [u8], limits: Limits) -> File<'a> {
        let limits = raw::Limits {
            headers: limits.headers,
            name: limits.name,
            has_budget: limits.budget.is_some().into(),
            budget: limits.budget.unwrap_or(0),
        };
        File { bytes, limits }
    }

    /// Returns the file's bytes.
    pub fn bytes(&self) -> &'a [u8] {
        self.bytes
    }

    /// Returns how many bytes of room the file needs: at least 64, at most 64 for each header that is allowed.
    ///
    /// ```
    /// assert_eq!(elfsee::File::new(b"").room(), 64);
    /// let bytes = std::fs::read("/proc/self/exe").unwrap();
    /// let file = elfsee::File::new(&bytes);
    /// assert_eq!(file.room(), 64 * usize::from(file.header().unwrap().shnum));
    /// ```
    pub fn room(&self) -> usize {
        // SAFETY: a slice's own pointer and length.
        let room = unsafe { raw::elfsee_room(self.bytes.as_ptr(), self.bytes.len(), self.limits.headers) };
        usize::try_from(room).unwrap_or(usize::MAX)
    }

    /// Returns how many bytes a listing of a file of this length reads at most, for any bytes.
    ///
    /// ```
    /// # fn main() -> Result<(), Box<dyn std::error::Error>> {
    /// let bytes = std::fs::read("/proc/self/exe")?;
    /// let file = elfsee::File::new(&bytes);
    /// let asked = file.show(elfsee::HEADER, &mut vec![0; file.room()], &mut [0; 256])?.asked;
    /// assert_eq!(asked, 64);
    /// assert!(asked <= file.cost());
    /// # Ok(())
    /// # }
    /// ```
    pub fn cost(&self) -> u64 {
        // SAFETY: a struct that is initialised.
        unsafe { raw::elfsee_cost(self.bytes.len() as u64, &self.limits) }
    }

    /// Lists the parts of the file that `parts` selects ([`ALL`], or a sum such as [`HEADER`] `|` [`SYMBOLS`]). A
    /// refusal is the listing's last line, and not an error. Fails with [`Error::Full`] if `out` is too short; `out`
    /// then has a prefix of the listing.
    ///
    /// ```
    /// # fn main() -> Result<(), Box<dyn std::error::Error>> {
    /// let bytes = std::fs::read("/proc/self/exe")?;
    /// let file = elfsee::File::new(&bytes);
    /// let (mut room, mut out) = (vec![0; file.room()], vec![0; 1 << 16]);
    /// let listing = file.show(elfsee::HEADER | elfsee::SEGMENTS, &mut room, &mut out)?;
    /// assert!(listing.text.starts_with("H ") && listing.refused.is_none());
    /// # Ok(())
    /// # }
    /// ```
    pub fn show<'o>(&self, parts: u16, room: &mut [u8], out: &'o mut [u8]) -> Result<Listing<'o>, Error> {
        let mut end = raw::End::default();
        // SAFETY: slices' own pointers and lengths, of which none that is written overlaps another, and
        // structs that are initialised.
        let status = unsafe {
            raw::elfsee_show(
                self.bytes.as_ptr(),
                self.bytes.len(),
                &self.limits,
                parts,
                room.as_mut_ptr(),
                room.len(),
                out.as_mut_ptr(),
                out.len(),
                &mut end,
            )
        };
        listed(status, out, &end)
    }

    /// Lists the file in a style: with names of the numbers defined by GNU, by the program headers, each line as a
    /// JSON object, or versions after the names of symbols. With the names defined by GNU, [`VERSIONS`] is a part
    /// too. Fails with [`Error::BadCall`] for parts that such a listing does not have, and for versions without those
    /// names.
    ///
    /// ```
    /// use elfsee::{Style, ALL, VERSIONS};
    ///
    /// # fn main() -> Result<(), Box<dyn std::error::Error>> {
    /// let bytes = std::fs::read("/proc/self/exe")?;
    /// let file = elfsee::File::new(&bytes);
    /// let (mut room, mut out) = (vec![0; file.room()], vec![0; 1 << 26]);
    /// let style = Style { gnu: true, json: true, ..Style::default() };
    /// let listing = file.show_in(style, ALL | VERSIONS, &mut room, &mut out)?;
    /// assert!(listing.text.starts_with("{\"line\":\"H\","));
    /// # Ok(())
    /// # }
    /// ```
    pub fn show_in<'o>(
        &self,
        style: Style,
        parts: u16,
        room: &mut [u8],
        out: &'o mut [u8],
    ) -> Result<Listing<'o>, Error> {
        let mut end = raw::End::default();
        let listing = raw::Listing { parts, flags: style.flags() };
        // SAFETY: slices' own pointers and lengths, of which none that is written overlaps another, and
        // structs that are initialised, one of them with its own size.
        let status = unsafe {
            raw::elfsee_list(
                self.bytes.as_ptr(),
                self.bytes.len(),
                &self.limits,
                &listing,
                core::mem::size_of_val(&listing),
                room.as_mut_ptr(),
                room.len(),
                out.as_mut_ptr(),
                out.len(),
                &mut end,
            )
        };
        listed(status, out, &end)
    }

    /// Lists only the rows with some names, of one part: [`SYMBOLS`], [`RELOCS`] or, with the names defined by GNU,
    /// [`VERSIONS`]. The names are in ascending order, as `sort` puts them. If versions follow names, each may
    /// have one, as `NAME@VERSION`, or `NAME@@VERSION` for a default one. As many bytes of a name are compared as
    /// the longest of them has, and with versions at least [`Limits::name`].
    ///
    /// Fails with [`Error::BadCall`] as [`File::show_in`] does, for other parts, and for a name that is empty or below
    /// the one before it.
    ///
    /// ```
    /// use elfsee::{Style, Text, SYMBOLS};
    ///
    /// # fn main() -> Result<(), Box<dyn std::error::Error>> {
    /// let bytes = std::fs::read("/proc/self/exe")?;
    /// let file = elfsee::File::new(&bytes);
    /// let (mut room, mut out) = (vec![0; file.room()], vec![0; 1 << 16]);
    /// let mut names = [Text::new(b"memcpy"), Text::new(b"main")];
    /// names.sort();
    /// let listing = file.show_names(Style::default(), SYMBOLS, &names, &mut room, &mut out)?;
    /// assert!(listing.text.lines().all(|line| line.ends_with(" main") || line.ends_with(" memcpy")));
    /// # Ok(())
    /// # }
    /// ```
    pub fn show_names<'o>(
        &self,
        style: Style,
        part: u16,
        names: &[Text<'_>],
        room: &mut [u8],
        out: &'o mut [u8],
    ) -> Result<Listing<'o>, Error> {
        let mut end = raw::End::default();
        let listing = raw::Listing { parts: part, flags: style.flags() };
        // SAFETY: as in `show_in`; the names are slices that are borrowed for the duration of the call.
        let status = unsafe {
            raw::elfsee_list_names(
                self.bytes.as_ptr(),
                self.bytes.len(),
                &self.limits,
                &listing,
                core::mem::size_of_val(&listing),
                texts::lent(names),
                names.len(),
                room.as_mut_ptr(),
                room.len(),
                out.as_mut_ptr(),
                out.len(),
                &mut end,
            )
        };
        listed(status, out, &end)
    }

    /// Looks up a name in the file's own SysV hash table: returns the first symbol of that name in its chain,
    /// with any version and place. A name has at most 4,096 bytes and no NUL.
    ///
    /// ```
    /// use elfsee::{Cause, Error, File};
    ///
    /// let bytes = std::fs::read("/proc/self/exe").unwrap();
    /// let file = File::new(&bytes);
    /// match file.find(b"main", &mut vec![0; file.room()]) {
    ///     Ok(lookup) => println!("{:?} after {} names", lookup.found, lookup.steps),
    ///     Err(Error::Refused(refused)) => assert_eq!(refused.cause, Cause::NoHash),
    ///     Err(error) => panic!("{error}"),
    /// }
    /// ```
    pub fn find(&self, name: &[u8], room: &mut [u8]) -> Result<Lookup, Error> {
        if name.contains(&0) {
            return Err(Error::BadCall);
        }
        let (mut found, mut end) = (raw::Found::default(), raw::End::default());
        // SAFETY: as in `show`; the name has no NUL.
        let status = unsafe {
            raw::elfsee_find(
                self.bytes.as_ptr(),
                self.bytes.len(),
                &self.limits,
                room.as_mut_ptr(),
                room.len(),
                name.as_ptr(),
                name.len(),
                &mut found,
                &mut end,
            )
        };
        let steps = found.steps;
        match status {
            raw::OK => Ok(Lookup { found: Some((found.symbol, found.index, found.section)), steps }),
            raw::ABSENT => Ok(Lookup { found: None, steps }),
            _ => Err(error_of(status, &end)),
        }
    }

    /// Looks up a name as glibc's dynamic loader does, alone or with a version: returns the first symbol of the
    /// name's chain, in the file's GNU hash table or otherwise in its SysV one, that has the name, is exported and
    /// whose version matches. The name of a version is given with its first 256 bytes, and the requested one whole.
    ///
    /// Fails with [`Error::BadCall`] also if the name or the version has a NUL, or the version is empty.
    pub fn look_up<'n>(&self, wanted: &Wanted<'n>, room: &mut [u8]) -> Result<Resolved<'n>, Error>
    where
        'a: 'n,
    {
        let version = wanted.version.unwrap_or(&[]);
        if wanted.name.contains(&0) || version.contains(&0) || wanted.version == Some(&[]) {
            return Err(Error::BadCall);
        }
        let flags = u32::from(wanted.by_segments) * raw::BY_SEGMENTS
            + u32::from(wanted.default_only) * raw::DEFAULT_ONLY;
        let (mut resolved, mut end) = (raw::Resolved::default(), raw::End::default());
        // SAFETY: as in `show`; neither the name nor the version has a NUL.
        let status = unsafe {
            raw::elfsee_look_up(
                self.bytes.as_ptr(),
                self.bytes.len(),
                &self.limits,
                flags,
                wanted.name.as_ptr(),
                wanted.name.len(),
                version.as_ptr(),
                version.len(),
                room.as_mut_ptr(),
                room.len(),
                &mut resolved,
                &mut end,
            )
        };
        match status {
            raw::OK => Ok(self.resolved(&resolved, wanted.version)),
            raw::ABSENT => Ok(Resolved { found: None, tried: resolved.tried }),
            _ => Err(error_of(status, &end)),
        }
    }

    /// Converts the numbers of a loader's lookup; the name of a version is that in the file if none is requested.
    fn resolved<'n>(&self, told: &raw::Resolved, wanted: Option<&'n [u8]>) -> Resolved<'n>
    where
        'a: 'n,
    {
        let name = wanted.unwrap_or(rows::bytes_of(self.bytes, told.version.at, told.version.len));
        let version = (told.has_version != 0).then_some(SymbolVersion {
            name,
            is_cut: told.is_cut != 0,
            number: told.number,
            is_hidden: told.is_hidden != 0,
            table: told.words,
        });
        let found = FoundSymbol { symbol: told.symbol, index: told.index, table: told.section, version };
        Resolved { found: Some(found), tried: told.tried }
    }

    /// Writes a section's bytes with its relocations applied, for the addresses of a layout: at most 64
    /// sections, 32 definitions and 32 entries of each kind, without duplicates. `out` must be as long as the section.
    ///
    /// ```
    /// use elfsee::{Cause, Error, File, Item};
    ///
    /// let bytes = std::fs::read("/proc/self/exe").unwrap();
    /// let file = File::new(&bytes);
    /// let layout = [Item::section(1, 0x401000), Item::define(b"callee", 0x402000)];
    /// let (mut room, mut out) = (vec![0; file.room()], [0; 64]);
    /// match file.apply(1, &layout, &mut room, &mut out) {
    ///     Ok(section) => println!("{section:x?}"),
    ///     // A program is not an object.
    ///     Err(error) => assert!(matches!(error, Error::Refused(refused) if refused.cause == Cause::NotRel)),
    /// }
    /// ```
    pub fn apply<'o>(
        &self,
        section: u16,
        layout: &[Item<'_>],
        room: &mut [u8],
        out: &'o mut [u8],
    ) -> Result<&'o [u8], Error> {
        let mut end = raw::End::default();
        // An `Item` is a `raw::Item` and nothing else.
        let items = layout.as_ptr().cast::<raw::Item>();
        let job = raw::Job { items, items_len: layout.len(), section: section.into(), none: 0 };
        // SAFETY: as in `show`; an item's name is a slice's own pointer and length.
        let status = unsafe {
            raw::elfsee_apply(
                self.bytes.as_ptr(),
                self.bytes.len(),
                &self.limits,
                &job,
                room.as_mut_ptr(),
                room.len(),
                out.as_mut_ptr(),
                out.len(),
                &mut end,
            )
        };
        match status {
            raw::OK => Ok(written(out, &end)),
            _ => Err(error_of(status, &end)),
        }
    }

    /// Writes a section's bytes with its relocations applied, as [`File::apply`] does, for a layout of any size. If
    /// the section is refused for lack of an address, the error says which.
    ///
    /// ```
    /// use elfsee::{File, Layout, NameAddress, SectionAddress};
    ///
    /// # fn main() -> Result<(), Box<dyn std::error::Error>> {
    /// let bytes = std::fs::read("/proc/self/exe")?;
    /// let file = File::new(&bytes);
    /// let sections: Vec<_> = (1..100).map(|index| SectionAddress::new(index, 0x401000)).collect();
    /// let mut names = vec![NameAddress::new(b"called", 0x500000), NameAddress::new(b"a", 0x600000)];
    /// names.sort();
    /// let layout = Layout { sections: &sections, definitions: &names, ..Layout::default() };
    /// match file.apply_lent(1, &layout, &mut vec![0; file.room()], &mut [0; 64]) {
    ///     Ok(section) => println!("{section:x?}"),
    ///     Err(unapplied) => println!("{unapplied}, missing: {:?}", unapplied.missing),
    /// }
    /// # Ok(())
    /// # }
    /// ```
    pub fn apply_lent<'o>(
        &self,
        section: u16,
        layout: &Layout<'_>,
        room: &mut [u8],
        out: &'o mut [u8],
    ) -> Result<&'o [u8], Unapplied> {
        let (mut missing, mut end) = (raw::Missing::default(), raw::End::default());
        let lent = layout.raw();
        // SAFETY: as in `show`; the layout's lists are slices' own pointers and lengths, and so are their names.
        let status = unsafe {
            raw::elfsee_apply_lent(
                self.bytes.as_ptr(),
                self.bytes.len(),
                &self.limits,
                section,
                &lent,
                room.as_mut_ptr(),
                room.len(),
                out.as_mut_ptr(),
                out.len(),
                &mut missing,
                &mut end,
            )
        };
        match status {
            raw::OK => Ok(written(out, &end)),
            _ => Err(Unapplied { error: error_of(status, &end), missing: Missing::of(missing) }),
        }
    }

    /// Writes the bytes of a LOAD segment of an executable or a shared object for x86-64, as a loader leaves them: as
    /// many as its `memsz`. `window` has 16 bytes or more: with less than the segment has, the entries are read more
    /// than once.
    ///
    /// ```
    /// use elfsee::{abi, File, ImageItem, ImageItems};
    ///
    /// # fn main() -> Result<(), Box<dyn std::error::Error>> {
    /// let bytes = std::fs::read("/proc/self/exe")?;
    /// let file = File::new(&bytes);
    /// let numbers = [ImageItem::base(0x7f0000000000)];
    /// let items = ImageItems { numbers: &numbers, partial: true, ..ImageItems::default() };
    /// let (mut room, mut window) = (vec![0; file.room()], vec![0; 1 << 20]);
    /// for (index, segment) in file.segments()?.filter(|(_, segment)| segment.kind == abi::PT_LOAD) {
    ///     let mut out = vec![0; segment.memsz as usize];
    ///     let image = file.image(index, &items, &mut room, &mut window, &mut out)?;
    ///     assert_eq!(image.len(), segment.memsz as usize);
    /// }
    /// # Ok(())
    /// # }
    /// ```
    pub fn image<'o>(
        &self,
        segment: u16,
        items: &ImageItems<'_>,
        room: &mut [u8],
        window: &mut [u8],
        out: &'o mut [u8],
    ) -> Result<&'o [u8], Error> {
        let (lent, mut end) = (items.raw(), raw::End::default());
        // SAFETY: as in `show`; the lists are slices' own pointers and lengths, and so are the copied bytes.
        let status = unsafe {
            raw::elfsee_image(
                self.bytes.as_ptr(),
                self.bytes.len(),
                &self.limits,
                segment,
                &lent,
                room.as_mut_ptr(),
                room.len(),
                window.as_mut_ptr(),
                window.len(),
                out.as_mut_ptr(),
                out.len(),
                &mut end,
            )
        };
        match status {
            raw::OK => Ok(written(out, &end)),
            _ => Err(error_of(status, &end)),
        }
    }

    /// Reads the next relocation entries that lack an item, in the order in which a loader applies them, as many as fit
    /// `out`, and adds to `index` how many; none after the last. Begin with an index of 0. Each call goes through all
    /// entries from the first.
    ///
    /// ```
    /// use elfsee::{File, ImageItems, Lacking};
    ///
    /// # fn main() -> Result<(), Box<dyn std::error::Error>> {
    /// let bytes = std::fs::read("/proc/self/exe")?;
    /// let file = File::new(&bytes);
    /// let (mut room, mut out, mut index) = (vec![0; file.room()], [Lacking::default(); 256], 0);
    /// let symbols = file.hashed_symbols(true, &mut room)?;
    /// loop {
    ///     let entries = file.lacking(&ImageItems::default(), &mut room, &mut index, &mut out)?;
    ///     if entries.is_empty() {
    ///         break;
    ///     }
    ///     for entry in entries {
    ///         let symbol = symbols.row(entry.symbol.into()).ok_or("no such symbol")?;
    ///         println!("{:x} {}", entry.place, elfsee::spelt(symbols.name(symbol.name.into())?));
    ///     }
    /// }
    /// # Ok(())
    /// # }
    /// ```
    pub fn lacking<'o>(
        &self,
        items: &ImageItems<'_>,
        room: &mut [u8],
        index: &mut u64,
        out: &'o mut [Lacking],
    ) -> Result<&'o [Lacking], Error> {
        let (lent, before, mut end) = (items.raw(), *index, raw::End::default());
        // SAFETY: as in `image`.
        let status = unsafe {
            raw::elfsee_next_lacking(
                self.bytes.as_ptr(),
                self.bytes.len(),
                &self.limits,
                &lent,
                room.as_mut_ptr(),
                room.len(),
                index,
                out.as_mut_ptr(),
                out.len(),
                &mut end,
            )
        };
        match status {
            raw::OK | raw::ABSENT => Ok(&out[..out.len().min((*index - before) as usize)]),
            _ => Err(error_of(status, &end)),
        }
    }

    /// Returns the file header.
    ///
    /// ```
    /// use elfsee::{abi, File};
    ///
    /// let bytes = std::fs::read("/proc/self/exe").unwrap();
    /// let header = File::new(&bytes).header().unwrap();
    /// assert!(header.kind == abi::ET_DYN || header.kind == abi::ET_EXEC);
    /// assert_eq!(header.machine, abi::EM_X86_64);
    /// assert!(File::new(&bytes[..63]).header().is_err());
    /// ```
    pub fn header(&self) -> Result<Header, Refused> {
        let (mut header, mut end) = (Header::default(), raw::End::default());
        // SAFETY: a slice's own pointer and length, and structs that are initialised.
        let status =
            unsafe { raw::elfsee_header(self.bytes.as_ptr(), self.bytes.len(), &mut header, &mut end) };
        match status {
            raw::OK => Ok(header),
            _ => Err(Refused::of(&end)),
        }
    }

    /// Returns a section header by its index; `None` if there is none of that index.
    pub fn section(&self, index: u16) -> Result<Option<Section>, Refused> {
        let (mut row, mut end) = (Section::default(), raw::End::default());
        // SAFETY: as in `header`.
        let status =
            unsafe { raw::elfsee_section(self.bytes.as_ptr(), self.bytes.len(), index, &mut row, &mut end) };
        row_of(status, row, &end)
    }

    /// Returns the bytes of a section; `None` if there is none of that index, or its type is NOBITS or NULL, which
    /// has no bytes in the file.
    pub fn content(&self, index: u16) -> Result<Option<&'a [u8]>, Refused> {
        let (mut range, mut end) = (Range::default(), raw::End::default());
        // SAFETY: as in `header`.
        let status = unsafe {
            raw::elfsee_section_bytes(self.bytes.as_ptr(), self.bytes.len(), index, &mut range, &mut end)
        };
        Ok(row_of(status, range, &end)?.map(|range| rows::bytes_of(self.bytes, range.at, range.len)))
    }

    /// Returns a program header by its index; `None` if there is none of that index.
    pub fn segment(&self, index: u16) -> Result<Option<Segment>, Refused> {
        let (mut row, mut end) = (Segment::default(), raw::End::default());
        // SAFETY: as in `header`.
        let status =
            unsafe { raw::elfsee_segment(self.bytes.as_ptr(), self.bytes.len(), index, &mut row, &mut end) };
        row_of(status, row, &end)
    }

    /// Returns where the string table of the section names is; `None` if the file has none.
    pub fn section_names(&self, room: &mut [u8]) -> Result<Option<Range>, Error> {
        let (mut names, mut end) = (Range::default(), raw::End::default());
        // SAFETY: as in `show`.
        let status = unsafe {
            raw::elfsee_section_names(
                self.bytes.as_ptr(),
                self.bytes.len(),
                &self.limits,
                room.as_mut_ptr(),
                room.len(),
                &mut names,
                &mut end,
            )
        };
        table_of(status, names, &end)
    }

    /// Returns the name at an offset in a string table, any bytes of the file, without its NUL.
    pub fn name(&self, strings: &Range, offset: u64) -> Result<&'a [u8], Refused> {
        rows::name_in(self.bytes, strings, offset)
    }

    /// Returns a string table: any bytes of the file.
    pub fn names_in(&self, strings: &Range) -> Names<'a> {
        Names::new(self.bytes, *strings)
    }

    /// Returns an iterator over the section headers, each with its index, after the checks with which a listing begins.
    /// [`Sections::named`] has their names too.
    ///
    /// ```
    /// # fn main() -> Result<(), Box<dyn std::error::Error>> {
    /// let bytes = std::fs::read("/proc/self/exe")?;
    /// let file = elfsee::File::new(&bytes);
    /// let mut room = vec![0; file.room()];
    /// for section in file.sections(&mut room)?.named() {
    ///     let (index, header, name) = section?;
    ///     println!("{index} {} {}", elfsee::spelt(name), header.size);
    /// }
    /// assert_eq!(file.sections(&mut room)?.count(), usize::from(file.header()?.shnum));
    /// # Ok(())
    /// # }
    /// ```
    pub fn sections(&self, room: &mut [u8]) -> Result<Sections<'a>, Error> {
        let first = self.header()?.shoff;
        let strings = self.section_names(room)?;
        Ok(Sections::new(*self, strings.map(|strings| self.names_in(&strings)), first))
    }

    /// Returns an iterator over the program headers, each with its index, after the checks of the file header and of
    /// their range.
    ///
    /// ```
    /// # fn main() -> Result<(), Box<dyn std::error::Error>> {
    /// use elfsee::abi;
    ///
    /// let bytes = std::fs::read("/proc/self/exe")?;
    /// let mut segments = elfsee::File::new(&bytes).segments()?;
    /// let (_, stack) = segments.find(|(_, segment)| segment.kind == abi::PT_GNU_STACK).unwrap();
    /// assert_eq!(stack.flags & abi::PF_X, 0);
    /// # Ok(())
    /// # }
    /// ```
    pub fn segments(&self) -> Result<Segments<'a>, Refused> {
        self.segment(0)?;
        Ok(Segments::new(*self))
    }

    /// Returns the symbols of a section; `None` if it holds none.
    ///
    /// ```
    /// # fn main() -> Result<(), Box<dyn std::error::Error>> {
    /// use elfsee::abi;
    ///
    /// let bytes = std::fs::read("/proc/self/exe")?;
    /// let file = elfsee::File::new(&bytes);
    /// let mut room = vec![0; file.room()];
    /// for (index, _) in file.sections(&mut room)? {
    ///     let Some(symbols) = file.symbols(index, &mut room)? else { continue };
    ///     for symbol in symbols.named() {
    ///         let (symbol, name) = symbol?;
    ///         if symbol.kind() == abi::STT_FUNC && symbol.section != abi::SHN_UNDEF {
    ///             println!("{:x} {}", symbol.value, elfsee::spelt(name));
    ///         }
    ///     }
    /// }
    /// # Ok(())
    /// # }
    /// ```
    pub fn symbols(&self, section: u16, room: &mut [u8]) -> Result<Option<Symbols<'a>>, Error> {
        let rows = self.open(raw::elfsee_symbols, section, room)?;
        Ok(rows.map(|rows| Rows::new(self.bytes, rows)))
    }

    /// Returns the symbols of the file's hash table, among which a loader looks up names: found as
    /// [`File::look_up`] finds them, so also in a file without section headers, and counted by the hash table.
    ///
    /// ```
    /// # fn main() -> Result<(), Box<dyn std::error::Error>> {
    /// let bytes = std::fs::read("/proc/self/exe")?;
    /// let file = elfsee::File::new(&bytes);
    /// for symbol in file.hashed_symbols(true, &mut vec![0; file.room()])?.named() {
    ///     println!("{}", elfsee::spelt(symbol?.1));
    /// }
    /// # Ok(())
    /// # }
    /// ```
    pub fn hashed_symbols(&self, by_segments: bool, room: &mut [u8]) -> Result<Symbols<'a>, Error> {
        let (mut rows, mut end) = (raw::Rows::default(), raw::End::default());
        // SAFETY: as in `show`.
        let status = unsafe {
            raw::elfsee_hashed_symbols(
                self.bytes.as_ptr(),
                self.bytes.len(),
                &self.limits,
                u32::from(by_segments) * raw::BY_SEGMENTS,
                room.as_mut_ptr(),
                room.len(),
                &mut rows,
                &mut end,
            )
        };
        match status {
            raw::OK => Ok(Rows::new(self.bytes, rows)),
            _ => Err(error_of(status, &end)),
        }
    }

    /// Returns the relocations of a table that the file's dynamic entries locate, found by the program headers alone;
    /// `None` if they locate none.
    ///
    /// ```
    /// # fn main() -> Result<(), Box<dyn std::error::Error>> {
    /// use elfsee::{LocatedRows, LocatedTable};
    ///
    /// let bytes = std::fs::read("/proc/self/exe")?;
    /// let file = elfsee::File::new(&bytes);
    /// let mut room = vec![0; file.room()];
    /// let symbols = file.hashed_symbols(true, &mut room)?;
    /// if let Some(LocatedRows::WithAddends(entries)) = file.located_relocations(LocatedTable::Rela, &mut room)? {
    ///     for entry in entries.filter(|entry| entry.symbol() != 0) {
    ///         let symbol = symbols.row(entry.symbol().into()).ok_or("no such symbol")?;
    ///         println!("{:x} {}", entry.offset, elfsee::spelt(symbols.name(symbol.name.into())?));
    ///     }
    /// }
    /// # Ok(())
    /// # }
    /// ```
    pub fn located_relocations(&self, table: LocatedTable, room: &mut [u8]) -> Result<Option<LocatedRows<'a>>, Error> {
        let (mut rows, mut end) = (raw::Rows::default(), raw::End::default());
        // SAFETY: as in `show`.
        let status = unsafe {
            raw::elfsee_located_relocations(
                self.bytes.as_ptr(),
                self.bytes.len(),
                &self.limits,
                table as u32,
                room.as_mut_ptr(),
                room.len(),
                &mut rows,
                &mut end,
            )
        };
        let rows = table_of(status, rows, &end)?;
        Ok(rows.map(|rows| LocatedRows::new(self.bytes, rows)))
    }

    /// Returns the relocation entries of a section; `None` if it holds none.
    ///
    /// ```
    /// # fn main() -> Result<(), Box<dyn std::error::Error>> {
    /// use elfsee::abi;
    ///
    /// let bytes = std::fs::read("/proc/self/exe")?;
    /// let file = elfsee::File::new(&bytes);
    /// let mut room = vec![0; file.room()];
    /// for (index, section) in file.sections(&mut room)? {
    ///     let Some(entries) = file.relocations(index, &mut room)? else { continue };
    ///     // The symbols that the entries are for, with their names, are in the section that this one links to.
    ///     let symbols = file.symbols(section.link as u16, &mut room)?;
    ///     for entry in entries.filter(|entry| entry.kind() == abi::R_X86_64_GLOB_DAT) {
    ///         let symbols = symbols.as_ref().ok_or("no symbols")?;
    ///         let symbol = symbols.row(entry.symbol().into()).ok_or("no such symbol")?;
    ///         println!("{:x} {}", entry.offset, elfsee::spelt(symbols.names().at(symbol.name.into())?));
    ///     }
    /// }
    /// # Ok(())
    /// # }
    /// ```
    pub fn relocations(&self, section: u16, room: &mut [u8]) -> Result<Option<Relocations<'a>>, Error> {
        let rows = self.open(raw::elfsee_relocations, section, room)?;
        Ok(rows.map(|rows| Rows::new(self.bytes, rows)))
    }

    /// Returns the dynamic entries of a section, up to and including the first with tag NULL; `None` if it holds none.
    pub fn dynamic(&self, section: u16, room: &mut [u8]) -> Result<Option<DynamicEntries<'a>>, Error> {
        let rows = self.open(raw::elfsee_dynamic, section, room)?;
        Ok(rows.map(|rows| Rows::new(self.bytes, rows)))
    }

    /// Returns the version words of the symbols of a section, one for each symbol of the table that it links to; `None`
    /// if it holds none. [`File::version_records`] has the names of their numbers.
    ///
    /// ```
    /// # fn main() -> Result<(), Box<dyn std::error::Error>> {
    /// let bytes = std::fs::read("/proc/self/exe")?;
    /// let file = elfsee::File::new(&bytes);
    /// let mut room = vec![0; file.room()];
    /// // The name of a number is that of the first definition with it, or else of the first need.
    /// let mut names = std::collections::HashMap::new();
    /// for kind in [elfsee::abi::SHT_GNU_VERDEF, elfsee::abi::SHT_GNU_VERNEED] {
    ///     let first = file.sections(&mut room)?.find(|(_, section)| section.kind == kind);
    ///     let Some((index, _)) = first else { continue };
    ///     for record in file.version_records(index, &mut room)?.into_iter().flatten() {
    ///         let record = record?;
    ///         if record.names_version() {
    ///             names.entry(record.number).or_insert(record.name);
    ///         }
    ///     }
    /// }
    /// assert!(names.values().any(|name| name.starts_with(b"GLIBC_")));
    /// for (index, section) in file.sections(&mut room)? {
    ///     let Some(words) = file.version_words(index, &mut room)? else { continue };
    ///     let symbols = file.symbols(section.link as u16, &mut room)?.ok_or("no symbols")?;
    ///     for (word, symbol) in words.zip(symbols.named()) {
    ///         if let (Some(version), (_, name)) = (names.get(&word.number), symbol?) {
    ///             println!("{}@{}", elfsee::spelt(name), elfsee::spelt(version));
    ///         }
    ///     }
    /// }
    /// # Ok(())
    /// # }
    /// ```
    pub fn version_words(&self, section: u16, room: &mut [u8]) -> Result<Option<VersionWords<'a>>, Error> {
        let rows = self.open(raw::elfsee_version_words, section, room)?;
        Ok(rows.map(|rows| Rows::new(self.bytes, rows)))
    }

    /// Returns the version definitions of a section, or its needs, each with its name; `None` if it holds neither.
    pub fn version_records(&self, section: u16, room: &mut [u8]) -> Result<Option<VersionRecords<'a>>, Error> {
        let (mut records, mut end) = (raw::VersionRecords::default(), raw::End::default());
        // SAFETY: as in `show`.
        let status = unsafe {
            raw::elfsee_version_records(
                self.bytes.as_ptr(),
                self.bytes.len(),
                &self.limits,
                section,
                room.as_ptr(),
                room.len(),
                &mut records,
                &mut end,
            )
        };
        let records = table_of(status, records, &end)?;
        Ok(records.map(|records| VersionRecords::new(self.bytes, records)))
    }

    /// Returns the dynamic entries of a segment, up to and including the first with tag NULL; `None` if it holds none.
    /// No string table goes with these rows: [`File::mapped`] finds the one whose address and size the first entries
    /// with the tags STRTAB (5) and STRSZ (10) have, and [`Rows::named_in`] has the names.
    ///
    /// ```
    /// # fn main() -> Result<(), Box<dyn std::error::Error>> {
    /// use elfsee::{abi, spelt};
    ///
    /// let bytes = std::fs::read("/proc/self/exe")?;
    /// let file = elfsee::File::new(&bytes);
    /// for (index, _) in file.segments()? {
    ///     let Some(rows) = file.segment_dynamic(index)? else { continue };
    ///     let first = |tag| rows.clone().find(|row| row.tag == tag).map_or(0, |row| row.value);
    ///     let strings = file.mapped(first(abi::DT_STRTAB), first(abi::DT_STRSZ))?.unwrap_or_default();
    ///     for row in rows.named_in(file.names_in(&strings)) {
    ///         let (row, name) = row?;
    ///         println!("{} {}", row.tag, spelt(name));
    ///     }
    /// }
    /// # Ok(())
    /// # }
    /// ```
    pub fn segment_dynamic(&self, segment: u16) -> Result<Option<DynamicEntries<'a>>, Refused> {
        let (mut rows, mut end) = (raw::Rows::default(), raw::End::default());
        // SAFETY: as in `header`.
        let status = unsafe {
            raw::elfsee_segment_dynamic(self.bytes.as_ptr(), self.bytes.len(), segment, &mut rows, &mut end)
        };
        let rows = row_of(status, rows, &end)?;
        Ok(rows.map(|rows| Rows::new(self.bytes, rows)))
    }

    /// Returns dynamic entries as [`File::dynamic`] does, within the budget of the limits: opening them reads each
    /// entry up to the first with tag NULL, which counts 16 bytes in `asked`, over all calls that are passed it, as
    /// for [`Rows::within`].
    pub fn dynamic_within(
        &self,
        section: u16,
        room: &mut [u8],
        asked: &Cell<u64>,
    ) -> Result<Option<DynamicEntries<'a>>, Error> {
        let (mut rows, mut end, mut count) = (raw::Rows::default(), raw::End::default(), asked.get());
        // SAFETY: as in `show`.
        let status = unsafe {
            raw::elfsee_dynamic_within(
                self.bytes.as_ptr(),
                self.bytes.len(),
                &self.limits,
                section,
                room.as_ptr(),
                room.len(),
                &mut count,
                &mut rows,
                &mut end,
            )
        };
        asked.set(count);
        let rows = table_of(status, rows, &end)?;
        Ok(rows.map(|rows| Rows::new(self.bytes, rows)))
    }

    /// Returns dynamic entries as [`File::segment_dynamic`] does, within the budget as [`File::dynamic_within`] does.
    pub fn segment_dynamic_within(
        &self,
        segment: u16,
        asked: &Cell<u64>,
    ) -> Result<Option<DynamicEntries<'a>>, Refused> {
        let (mut rows, mut end, mut count) = (raw::Rows::default(), raw::End::default(), asked.get());
        let (file, len) = (self.bytes.as_ptr(), self.bytes.len());
        // SAFETY: as in `header`.
        let status = unsafe {
            raw::elfsee_segment_dynamic_within(file, len, &self.limits, segment, &mut count, &mut rows, &mut end)
        };
        asked.set(count);
        let rows = row_of(status, rows, &end)?;
        Ok(rows.map(|rows| Rows::new(self.bytes, rows)))
    }

    /// Returns where `size` bytes at an address are in the file, by the first LOAD program header that holds
    /// them all among the bytes that it has in the file; `None` if none does.
    pub fn mapped(&self, address: u64, size: u64) -> Result<Option<Range>, Refused> {
        let (mut range, mut end) = (Range::default(), raw::End::default());
        // SAFETY: as in `header`.
        let status = unsafe {
            raw::elfsee_mapped(self.bytes.as_ptr(), self.bytes.len(), address, size, &mut range, &mut end)
        };
        row_of(status, range, &end)
    }

    /// Returns the notes of a section; `None` if it holds none.
    pub fn notes(&self, section: u16) -> Result<Option<Notes<'a>>, Refused> {
        self.open_notes(raw::elfsee_notes, section)
    }

    /// Returns the notes of a segment; `None` if it holds none.
    ///
    /// ```
    /// # fn main() -> Result<(), Box<dyn std::error::Error>> {
    /// let bytes = std::fs::read("/proc/self/exe")?;
    /// let file = elfsee::File::new(&bytes);
    /// for (index, _) in file.segments()? {
    ///     for note in file.segment_notes(index)?.into_iter().flatten() {
    ///         let note = note?;
    ///         println!("{} {} {} bytes", elfsee::spelt(note.name), note.kind, note.descriptor.len());
    ///     }
    /// }
    /// # Ok(())
    /// # }
    /// ```
    pub fn segment_notes(&self, segment: u16) -> Result<Option<Notes<'a>>, Refused> {
        self.open_notes(raw::elfsee_segment_notes, segment)
    }

    /// Returns the members of an archive, such as a static library.
    ///
    /// ```
    /// # fn main() -> Result<(), elfsee::Error> {
    /// let archive = b"!<arch>\nhello.txt/      0           0     0     644     6         `\nhello\n";
    /// for member in elfsee::File::new(archive).members()? {
    ///     let member = member?;
    ///     assert_eq!((member.name, member.content), (&b"hello.txt"[..], &b"hello\n"[..]));
    ///     assert_eq!(elfsee::File::new(member.content).header().unwrap_err().cause, elfsee::Cause::Short);
    /// }
    /// # Ok(())
    /// # }
    /// ```
    pub fn members(&self) -> Result<Members<'a>, Refused> {
        let (mut members, mut end) = (raw::Members::default(), raw::End::default());
        // SAFETY: as in `header`.
        let status =
            unsafe { raw::elfsee_members(self.bytes.as_ptr(), self.bytes.len(), &mut members, &mut end) };
        match status {
            raw::OK => Ok(Members::new(self.bytes, members)),
            _ => Err(Refused::of(&end)),
        }
    }

    fn open_notes(&self, call: raw::OpenNotes, header: u16) -> Result<Option<Notes<'a>>, Refused> {
        let (mut notes, mut end) = (raw::Notes::default(), raw::End::default());
        // SAFETY: as in `header`.
        let status = unsafe { call(self.bytes.as_ptr(), self.bytes.len(), header, &mut notes, &mut end) };
        let notes = row_of(status, notes, &end)?;
        Ok(notes.map(|notes| Notes::new(self.bytes, notes)))
    }

    fn open(&self, call: raw::OpenTable, table: u16, room: &mut [u8]) -> Result<Option<raw::Rows>, Error> {
        let (mut rows, mut end) = (raw::Rows::default(), raw::End::default());
        // SAFETY: as in `show`.
        let status = unsafe {
            call(
                self.bytes.as_ptr(),
                self.bytes.len(),
                &self.limits,
                table,
                room.as_mut_ptr(),
                room.len(),
                &mut rows,
                &mut end,
            )
        };
        table_of(status, rows, &end)
    }
}

/// Returns the version of the library that is linked, 0x00MMmmpp.
pub fn version() -> u32 {
    // SAFETY: the call has no conditions.
    unsafe { raw::elfsee_version() }
}

fn error_of(status: u32, end: &raw::End) -> Error {
    match status {
        raw::FULL => Error::Full,
        raw::BAD_CALL => Error::BadCall,
        _ => Error::Refused(Refused::of(end)),
    }
}

fn row_of<R>(status: u32, row: R, end: &raw::End) -> Result<Option<R>, Refused> {
    match status {
        raw::OK => Ok(Some(row)),
        raw::ABSENT => Ok(None),
        _ => Err(Refused::of(end)),
    }
}

fn table_of<R>(status: u32, table: R, end: &raw::End) -> Result<Option<R>, Error> {
    match status {
        raw::OK => Ok(Some(table)),
        raw::ABSENT => Ok(None),
        _ => Err(error_of(status, end)),
    }
}

/// The listing that a call wrote, by its status.
fn listed<'o>(status: u32, out: &'o [u8], end: &raw::End) -> Result<Listing<'o>, Error> {
    if status == raw::FULL || status == raw::BAD_CALL {
        return Err(error_of(status, end));
    }
    let text = core::str::from_utf8(written(out, end)).unwrap_or("");
    let refused = (status == raw::REFUSED).then(|| Refused::of(end));
    Ok(Listing { text, refused, asked: end.asked })
}

/// The bytes of `out` that a call wrote.
fn written<'o>(out: &'o [u8], end: &raw::End) -> &'o [u8] {
    let length = usize::try_from(end.written).unwrap_or(usize::MAX);
    &out[..length.min(out.len())]
}
