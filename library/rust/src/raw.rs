//! The library's calls and structs in the form of C: `elfsee.h` says what each means, what it promises
//! and what its caller guarantees. [`crate::File`] has the same as safe calls.
//!
//! A field that C calls `type` is `kind` here.

#![allow(missing_docs)]

pub const OK: u32 = 0;
pub const REFUSED: u32 = 1;
pub const ABSENT: u32 = 2;
pub const FULL: u32 = 3;
pub const BAD_CALL: u32 = 4;

pub const BY_SEGMENTS: u32 = 1;
pub const DEFAULT_ONLY: u32 = 2;
pub const GNU: u32 = 4;
pub const JSON: u32 = 8;
pub const NAME_VERSIONS: u32 = 16;

pub const SECTION: u32 = 0;
pub const DEFINE: u32 = 1;
pub const ENTRY: u32 = 2;
pub const TABLE: u32 = 3;
pub const THREAD: u32 = 4;

pub const IMAGE_BASE: u32 = 0;
pub const IMAGE_DESCRIPTOR: u32 = 1;
pub const IMAGE_SYMBOL: u32 = 2;
pub const IMAGE_CALL: u32 = 3;
pub const IMAGE_MODULE: u32 = 4;
pub const IMAGE_VALUE: u32 = 5;
pub const IMAGE_OFFSET: u32 = 6;
pub const IMAGE_RESOLVER: u32 = 7;

pub const AT_RELR: u32 = 0;
pub const AT_REL: u32 = 1;
pub const AT_RELA: u32 = 2;
pub const AT_JMPREL: u32 = 3;

#[repr(C)]
#[derive(Clone, Copy, Debug, Default, PartialEq, Eq)]
pub struct Limits {
    pub headers: u16,
    pub name: u16,
    pub has_budget: u32,
    pub budget: u64,
}

#[repr(C)]
#[derive(Clone, Copy, Debug, Default, PartialEq, Eq)]
pub struct Listing {
    pub parts: u16,
    pub flags: u16,
}

#[repr(C)]
#[derive(Clone, Copy, Debug)]
pub struct Text {
    pub bytes: *const u8,
    pub len: usize,
}

#[repr(C)]
#[derive(Clone, Copy, Debug, Default, PartialEq, Eq)]
pub struct End {
    pub at: u64,
    pub written: u64,
    pub asked: u64,
    pub cause: u32,
    pub none: u32,
}

/// A symbol, field by field (gABI, Symbol Table).
#[repr(C)]
#[derive(Clone, Copy, Debug, Default, PartialEq, Eq)]
pub struct Symbol {
    pub value: u64,
    pub size: u64,
    pub name: u32,
    pub section: u16,
    pub info: u8,
    pub other: u8,
}

#[repr(C)]
#[derive(Clone, Copy, Debug, Default, PartialEq, Eq)]
pub struct Found {
    pub symbol: Symbol,
    pub index: u32,
    pub steps: u32,
    pub section: u16,
    pub none: u16,
    pub none_behind: u32,
}

/// What a loader's lookup found.
#[repr(C)]
#[derive(Clone, Copy, Debug, Default, PartialEq, Eq)]
pub struct Resolved {
    pub symbol: Symbol,
    pub index: u64,
    pub tried: u64,
    pub version: Range,
    pub has_version: u32,
    pub is_hidden: u32,
    pub is_cut: u32,
    pub section: u16,
    pub words: u16,
    pub number: u16,
    pub none: u16,
    pub none_behind: u32,
}

#[repr(C)]
#[derive(Clone, Copy, Debug)]
pub struct Item {
    pub address: u64,
    pub name: *const u8,
    pub name_len: usize,
    pub kind: u32,
    pub index: u32,
}

#[repr(C)]
#[derive(Clone, Copy, Debug)]
pub struct Job {
    pub items: *const Item,
    pub items_len: usize,
    pub section: u32,
    pub none: u32,
}

/// A section of a borrowed layout. They are ordered by their indexes.
#[repr(C)]
#[derive(Clone, Copy, Debug, Default, PartialEq, Eq, PartialOrd, Ord)]
pub struct LentSection {
    pub index: u16,
    pub address: u64,
}

#[repr(C)]
#[derive(Clone, Copy, Debug)]
pub struct LentName {
    pub name: *const u8,
    pub name_len: usize,
    pub address: u64,
}

#[repr(C)]
#[derive(Clone, Copy, Debug)]
pub struct Layout {
    pub sections: *const LentSection,
    pub sections_len: usize,
    pub definitions: *const LentName,
    pub definitions_len: usize,
    pub linkage: *const LentName,
    pub linkage_len: usize,
    pub table: *const LentName,
    pub table_len: usize,
    pub thread: *const LentName,
    pub thread_len: usize,
}

/// What a layout lacks; all 0 if no address would help.
#[repr(C)]
#[derive(Clone, Copy, Debug, PartialEq, Eq)]
pub struct Missing {
    pub helpful: u32,
    pub section: u32,
    pub relocation: u32,
    pub name_len: u32,
    pub is_cut: u32,
    pub name: [u8; 256],
}

impl Default for Missing {
    fn default() -> Missing {
        Missing { helpful: 0, section: 0, relocation: 0, name_len: 0, is_cut: 0, name: [0; 256] }
    }
}

/// A number that an image depends on besides the file. They are ordered by their kinds, and then by their keys.
#[repr(C)]
#[derive(Clone, Copy, Debug, Default, PartialEq, Eq, PartialOrd, Ord)]
pub struct ImageItem {
    pub kind: u32,
    pub key: u64,
    pub value: u64,
}

#[repr(C)]
#[derive(Clone, Copy, Debug)]
pub struct Copied {
    pub index: u32,
    pub digits: u32,
    pub bytes: *const u8,
    pub bytes_len: usize,
}

#[repr(C)]
#[derive(Clone, Copy, Debug)]
pub struct ImageItems {
    pub numbers: *const ImageItem,
    pub numbers_len: usize,
    pub copies: *const Copied,
    pub copies_len: usize,
    pub partial: u32,
    pub none: u32,
}

/// A relocation entry that lacks an item.
#[repr(C)]
#[derive(Clone, Copy, Debug, Default, PartialEq, Eq)]
pub struct Lacking {
    pub at: u64,
    pub place: u64,
    pub kind: u32,
    pub symbol: u32,
    pub cause: u32,
    pub none: u32,
}

/// The version of a symbol: its number, and 1 if a name alone does not find the symbol.
#[repr(C)]
#[derive(Clone, Copy, Debug, Default, PartialEq, Eq)]
pub struct VersionWord {
    pub number: u16,
    pub is_hidden: u16,
}

pub const DEFINITION: u32 = 1;
pub const FILE: u32 = 2;
pub const NEED: u32 = 3;

/// A record of version definitions or needs, field by field.
#[repr(C)]
#[derive(Clone, Copy, Debug, Default, PartialEq, Eq)]
pub struct VersionRecord {
    pub at: u64,
    pub named_at: u64,
    pub name: u32,
    pub hash: u32,
    pub number: u16,
    pub flags: u16,
    pub kind: u32,
}

/// A position in a walk over such records: plain numbers.
#[repr(C)]
#[derive(Clone, Copy, Debug, Default, PartialEq, Eq)]
pub struct VersionRecords {
    pub at: u64,
    pub size: u64,
    pub place: u64,
    pub from: u64,
    pub owner: u64,
    pub left: u64,
    pub strings_at: u64,
    pub strings_len: u64,
    pub kind: u32,
    pub none: u32,
}

/// The file header, field by field (gABI, ELF Header).
#[repr(C)]
#[derive(Clone, Copy, Debug, Default, PartialEq, Eq)]
pub struct Header {
    pub entry: u64,
    pub phoff: u64,
    pub shoff: u64,
    pub version: u32,
    pub flags: u32,
    pub kind: u16,
    pub machine: u16,
    pub ehsize: u16,
    pub phentsize: u16,
    pub phnum: u16,
    pub shentsize: u16,
    pub shnum: u16,
    pub shstrndx: u16,
    pub ident: [u8; 16],
}

/// A section header, field by field (gABI, Sections).
#[repr(C)]
#[derive(Clone, Copy, Debug, Default, PartialEq, Eq)]
pub struct Section {
    pub flags: u64,
    pub addr: u64,
    pub offset: u64,
    pub size: u64,
    pub addralign: u64,
    pub entsize: u64,
    pub name: u32,
    pub kind: u32,
    pub link: u32,
    pub info: u32,
}

/// A program header, field by field (gABI, Program Header).
#[repr(C)]
#[derive(Clone, Copy, Debug, Default, PartialEq, Eq)]
pub struct Segment {
    pub offset: u64,
    pub vaddr: u64,
    pub paddr: u64,
    pub filesz: u64,
    pub memsz: u64,
    pub align: u64,
    pub kind: u32,
    pub flags: u32,
}

/// A relocation entry, field by field (gABI, Relocation).
#[repr(C)]
#[derive(Clone, Copy, Debug, Default, PartialEq, Eq)]
pub struct Relocation {
    pub offset: u64,
    pub info: u64,
    pub addend: i64,
}

/// A relocation entry without an addend, field by field (gABI, Relocation).
#[repr(C)]
#[derive(Clone, Copy, Debug, Default, PartialEq, Eq)]
pub struct ShortRelocation {
    pub offset: u64,
    pub info: u64,
}

/// A dynamic entry, field by field (gABI, Dynamic Section).
#[repr(C)]
#[derive(Clone, Copy, Debug, Default, PartialEq, Eq)]
pub struct Dynamic {
    pub tag: i64,
    pub value: u64,
}

/// Bytes of the file: their offset and their number.
#[repr(C)]
#[derive(Clone, Copy, Debug, Default, PartialEq, Eq)]
pub struct Range {
    pub at: u64,
    pub len: u64,
}

#[repr(C)]
#[derive(Clone, Copy, Debug, Default, PartialEq, Eq)]
pub struct Rows {
    pub at: u64,
    pub count: u64,
    pub index: u64,
    pub entry: u64,
    pub strings_at: u64,
    pub strings_len: u64,
}

/// A position in a table of notes: plain numbers.
#[repr(C)]
#[derive(Clone, Copy, Debug, Default, PartialEq, Eq)]
pub struct Notes {
    pub at: u64,
    pub left: u64,
    pub align: u64,
    pub header: u32,
    pub none: u32,
}

/// A note: where its name and its descriptor are in the file, and their sizes.
#[repr(C)]
#[derive(Clone, Copy, Debug, Default, PartialEq, Eq)]
pub struct Note {
    pub at: u64,
    pub name_at: u64,
    pub desc_at: u64,
    pub namesz: u32,
    pub descsz: u32,
    pub kind: u32,
    pub header: u32,
}

/// A position in a walk over the members of an archive: plain numbers.
#[repr(C)]
#[derive(Clone, Copy, Debug, Default, PartialEq, Eq)]
pub struct Members {
    pub at: u64,
    pub names: Range,
    pub has_names: u32,
    pub none: u32,
}

/// A member of an archive: where its header, its data and its name are in the file.
#[repr(C)]
#[derive(Clone, Copy, Debug, Default, PartialEq, Eq)]
pub struct Member {
    pub at: u64,
    pub content: Range,
    pub name: Range,
    pub is_cut: u32,
    pub none: u32,
}

/// A call that checks the notes that a header describes and sets a position before the first.
pub type OpenNotes = unsafe extern "C" fn(*const u8, usize, u16, *mut Notes, *mut End) -> u32;

/// A call that checks a table and sets rows before its first one.
pub type OpenTable =
    unsafe extern "C" fn(*const u8, usize, *const Limits, u16, *mut u8, usize, *mut Rows, *mut End) -> u32;

extern "C" {
    pub fn elfsee_version() -> u32;
    pub fn elfsee_cause_word(cause: u32, out: *mut u8, out_len: usize) -> usize;
    pub fn elfsee_room(file: *const u8, file_len: usize, headers: u16) -> u64;
    pub fn elfsee_cost(file_len: u64, limits: *const Limits) -> u64;
    pub fn elfsee_show(
        file: *const u8,
        file_len: usize,
        limits: *const Limits,
        parts: u16,
        room: *mut u8,
        room_len: usize,
        out: *mut u8,
        out_len: usize,
        end: *mut End,
    ) -> u32;
    pub fn elfsee_list(
        file: *const u8,
        file_len: usize,
        limits: *const Limits,
        listing: *const Listing,
        listing_len: usize,
        room: *mut u8,
        room_len: usize,
        out: *mut u8,
        out_len: usize,
        end: *mut End,
    ) -> u32;
    pub fn elfsee_list_names(
        file: *const u8,
        file_len: usize,
        limits: *const Limits,
        listing: *const Listing,
        listing_len: usize,
        names: *const Text,
        names_len: usize,
        room: *mut u8,
        room_len: usize,
        out: *mut u8,
        out_len: usize,
        end: *mut End,
    ) -> u32;
    pub fn elfsee_find(
        file: *const u8,
        file_len: usize,
        limits: *const Limits,
        room: *mut u8,
        room_len: usize,
        name: *const u8,
        name_len: usize,
        found: *mut Found,
        end: *mut End,
    ) -> u32;
    pub fn elfsee_look_up(
        file: *const u8,
        file_len: usize,
        limits: *const Limits,
        flags: u32,
        name: *const u8,
        name_len: usize,
        version: *const u8,
        version_len: usize,
        room: *mut u8,
        room_len: usize,
        resolved: *mut Resolved,
        end: *mut End,
    ) -> u32;
    pub fn elfsee_apply(
        file: *const u8,
        file_len: usize,
        limits: *const Limits,
        job: *const Job,
        room: *mut u8,
        room_len: usize,
        out: *mut u8,
        out_len: usize,
        end: *mut End,
    ) -> u32;
    pub fn elfsee_apply_lent(
        file: *const u8,
        file_len: usize,
        limits: *const Limits,
        section: u16,
        layout: *const Layout,
        room: *mut u8,
        room_len: usize,
        out: *mut u8,
        out_len: usize,
        missing: *mut Missing,
        end: *mut End,
    ) -> u32;
    pub fn elfsee_image(
        file: *const u8,
        file_len: usize,
        limits: *const Limits,
        segment: u16,
        items: *const ImageItems,
        room: *mut u8,
        room_len: usize,
        window: *mut u8,
        window_len: usize,
        out: *mut u8,
        out_len: usize,
        end: *mut End,
    ) -> u32;
    pub fn elfsee_next_lacking(
        file: *const u8,
        file_len: usize,
        limits: *const Limits,
        items: *const ImageItems,
        room: *mut u8,
        room_len: usize,
        index: *mut u64,
        out: *mut Lacking,
        out_len: usize,
        end: *mut End,
    ) -> u32;
    pub fn elfsee_located_relocations(
        file: *const u8,
        file_len: usize,
        limits: *const Limits,
        table: u32,
        room: *mut u8,
        room_len: usize,
        rows: *mut Rows,
        end: *mut End,
    ) -> u32;
    pub fn elfsee_next_short_relocations(
        file: *const u8,
        file_len: usize,
        rows: *mut Rows,
        out: *mut ShortRelocation,
        out_len: usize,
    ) -> usize;
    pub fn elfsee_next_relative_words(
        file: *const u8,
        file_len: usize,
        rows: *mut Rows,
        out: *mut u64,
        out_len: usize,
    ) -> usize;
    pub fn elfsee_version_words(
        file: *const u8,
        file_len: usize,
        limits: *const Limits,
        section: u16,
        room: *mut u8,
        room_len: usize,
        rows: *mut Rows,
        end: *mut End,
    ) -> u32;
    pub fn elfsee_next_version_words(
        file: *const u8,
        file_len: usize,
        rows: *mut Rows,
        out: *mut VersionWord,
        out_len: usize,
    ) -> usize;
    pub fn elfsee_next_version_words_within(
        file: *const u8,
        file_len: usize,
        limits: *const Limits,
        asked: *mut u64,
        rows: *mut Rows,
        out: *mut VersionWord,
        out_len: usize,
        end: *mut End,
    ) -> usize;
    pub fn elfsee_version_records(
        file: *const u8,
        file_len: usize,
        limits: *const Limits,
        section: u16,
        room: *const u8,
        room_len: usize,
        records: *mut VersionRecords,
        end: *mut End,
    ) -> u32;
    pub fn elfsee_next_version_record(
        file: *const u8,
        file_len: usize,
        records: *mut VersionRecords,
        record: *mut VersionRecord,
        end: *mut End,
    ) -> u32;
    pub fn elfsee_header(file: *const u8, file_len: usize, header: *mut Header, end: *mut End) -> u32;
    pub fn elfsee_section(
        file: *const u8,
        file_len: usize,
        index: u16,
        section: *mut Section,
        end: *mut End,
    ) -> u32;
    pub fn elfsee_section_bytes(
        file: *const u8,
        file_len: usize,
        index: u16,
        range: *mut Range,
        end: *mut End,
    ) -> u32;
    pub fn elfsee_segment(
        file: *const u8,
        file_len: usize,
        index: u16,
        segment: *mut Segment,
        end: *mut End,
    ) -> u32;
    pub fn elfsee_symbols(
        file: *const u8,
        file_len: usize,
        limits: *const Limits,
        section: u16,
        room: *mut u8,
        room_len: usize,
        rows: *mut Rows,
        end: *mut End,
    ) -> u32;
    pub fn elfsee_hashed_symbols(
        file: *const u8,
        file_len: usize,
        limits: *const Limits,
        flags: u32,
        room: *mut u8,
        room_len: usize,
        rows: *mut Rows,
        end: *mut End,
    ) -> u32;
    pub fn elfsee_relocations(
        file: *const u8,
        file_len: usize,
        limits: *const Limits,
        section: u16,
        room: *mut u8,
        room_len: usize,
        rows: *mut Rows,
        end: *mut End,
    ) -> u32;
    pub fn elfsee_dynamic(
        file: *const u8,
        file_len: usize,
        limits: *const Limits,
        section: u16,
        room: *mut u8,
        room_len: usize,
        rows: *mut Rows,
        end: *mut End,
    ) -> u32;
    pub fn elfsee_segment_dynamic(
        file: *const u8,
        file_len: usize,
        segment: u16,
        rows: *mut Rows,
        end: *mut End,
    ) -> u32;
    pub fn elfsee_dynamic_within(
        file: *const u8,
        file_len: usize,
        limits: *const Limits,
        section: u16,
        room: *const u8,
        room_len: usize,
        asked: *mut u64,
        rows: *mut Rows,
        end: *mut End,
    ) -> u32;
    pub fn elfsee_segment_dynamic_within(
        file: *const u8,
        file_len: usize,
        limits: *const Limits,
        segment: u16,
        asked: *mut u64,
        rows: *mut Rows,
        end: *mut End,
    ) -> u32;
    pub fn elfsee_next_symbols_within(
        file: *const u8,
        file_len: usize,
        limits: *const Limits,
        asked: *mut u64,
        rows: *mut Rows,
        out: *mut Symbol,
        out_len: usize,
        end: *mut End,
    ) -> usize;
    pub fn elfsee_next_relocations_within(
        file: *const u8,
        file_len: usize,
        limits: *const Limits,
        asked: *mut u64,
        rows: *mut Rows,
        out: *mut Relocation,
        out_len: usize,
        end: *mut End,
    ) -> usize;
    pub fn elfsee_next_dynamic_within(
        file: *const u8,
        file_len: usize,
        limits: *const Limits,
        asked: *mut u64,
        rows: *mut Rows,
        out: *mut Dynamic,
        out_len: usize,
        end: *mut End,
    ) -> usize;
    pub fn elfsee_next_symbols(
        file: *const u8,
        file_len: usize,
        rows: *mut Rows,
        out: *mut Symbol,
        out_len: usize,
    ) -> usize;
    pub fn elfsee_next_relocations(
        file: *const u8,
        file_len: usize,
        rows: *mut Rows,
        out: *mut Relocation,
        out_len: usize,
    ) -> usize;
    pub fn elfsee_next_dynamic(
        file: *const u8,
        file_len: usize,
        rows: *mut Rows,
        out: *mut Dynamic,
        out_len: usize,
    ) -> usize;
    pub fn elfsee_notes(
        file: *const u8,
        file_len: usize,
        section: u16,
        notes: *mut Notes,
        end: *mut End,
    ) -> u32;
    pub fn elfsee_segment_notes(
        file: *const u8,
        file_len: usize,
        segment: u16,
        notes: *mut Notes,
        end: *mut End,
    ) -> u32;
    pub fn elfsee_next_note(
        file: *const u8,
        file_len: usize,
        notes: *mut Notes,
        note: *mut Note,
        end: *mut End,
    ) -> u32;
    pub fn elfsee_members(file: *const u8, file_len: usize, members: *mut Members, end: *mut End) -> u32;
    pub fn elfsee_next_member(
        file: *const u8,
        file_len: usize,
        members: *mut Members,
        member: *mut Member,
        end: *mut End,
    ) -> u32;
    pub fn elfsee_name(
        file: *const u8,
        file_len: usize,
        strings: *const Range,
        offset: u64,
        name: *mut Range,
        end: *mut End,
    ) -> u32;
    pub fn elfsee_mapped(
        file: *const u8,
        file_len: usize,
        address: u64,
        size: u64,
        range: *mut Range,
        end: *mut End,
    ) -> u32;
    pub fn elfsee_section_names(
        file: *const u8,
        file_len: usize,
        limits: *const Limits,
        room: *mut u8,
        room_len: usize,
        strings: *mut Range,
        end: *mut End,
    ) -> u32;
}
