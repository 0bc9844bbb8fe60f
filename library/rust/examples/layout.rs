//! Prints the layout of the structs of `elfsee::raw` in Rust: a line `STRUCT FIELD OFFSET SIZE` for each
//! field, and before those of a struct `STRUCT . 0 SIZE` for the whole of it.

use elfsee::raw;
use std::mem::{size_of, size_of_val, MaybeUninit};
use std::ptr::addr_of;

/// The name in C of a field: `kind` is its `type`, except items' and a version's, which is `kind` in both.
fn name_in_c<'a>(of: &str, field: &'a str) -> &'a str {
    if field == "kind" && !["elfsee_item", "elfsee_image_item", "elfsee_version_record", "elfsee_version_records"].contains(&of) {
        "type"
    } else {
        field
    }
}

macro_rules! tell {
    ($name:literal, $type:ty, $($field:ident)+) => {{
        println!("{} . 0 {}", $name, size_of::<$type>());
        // SAFETY: all fields are numbers and pointers, of which any bytes are values.
        let row: $type = unsafe { MaybeUninit::zeroed().assume_init() };
        let start = addr_of!(row) as usize;
        $(
            let offset = addr_of!(row.$field) as usize - start;
            println!("{} {} {} {}", $name, name_in_c($name, stringify!($field)), offset, size_of_val(&row.$field));
        )+
    }};
}

fn main() {
    tell!("elfsee_limits", raw::Limits, headers name has_budget budget);
    tell!("elfsee_end", raw::End, at written asked cause none);
    tell!("elfsee_listing", raw::Listing, parts flags);
    tell!("elfsee_text", raw::Text, bytes len);
    tell!("elfsee_symbol", raw::Symbol, value size name section info other);
    tell!("elfsee_found", raw::Found, symbol index steps section none none_behind);
    tell!("elfsee_resolved", raw::Resolved, symbol index tried version has_version is_hidden is_cut section
        words number none none_behind);
    tell!("elfsee_item", raw::Item, address name name_len kind index);
    tell!("elfsee_job", raw::Job, items items_len section none);
    tell!("elfsee_lent_section", raw::LentSection, index address);
    tell!("elfsee_lent_name", raw::LentName, name name_len address);
    tell!("elfsee_layout", raw::Layout, sections sections_len definitions definitions_len linkage linkage_len
        table table_len thread thread_len);
    tell!("elfsee_missing", raw::Missing, helpful section relocation name_len is_cut name);
    tell!("elfsee_image_item", raw::ImageItem, kind key value);
    tell!("elfsee_copied", raw::Copied, index digits bytes bytes_len);
    tell!("elfsee_image_items", raw::ImageItems, numbers numbers_len copies copies_len partial none);
    tell!("elfsee_lacking", raw::Lacking, at place kind symbol cause none);
    tell!("elfsee_version_word", raw::VersionWord, number is_hidden);
    tell!("elfsee_version_record", raw::VersionRecord, at named_at name hash number flags kind);
    tell!("elfsee_version_records", raw::VersionRecords, at size place from owner left strings_at strings_len kind none);
    tell!("elfsee_header", raw::Header, entry phoff shoff version flags kind machine ehsize phentsize
        phnum shentsize shnum shstrndx ident);
    tell!("elfsee_section", raw::Section, flags addr offset size addralign entsize name kind link info);
    tell!("elfsee_segment", raw::Segment, offset vaddr paddr filesz memsz align kind flags);
    tell!("elfsee_relocation", raw::Relocation, offset info addend);
    tell!("elfsee_short_relocation", raw::ShortRelocation, offset info);
    tell!("elfsee_dynamic", raw::Dynamic, tag value);
    tell!("elfsee_range", raw::Range, at len);
    tell!("elfsee_rows", raw::Rows, at count index entry strings_at strings_len);
    tell!("elfsee_notes", raw::Notes, at left align header none);
    tell!("elfsee_note", raw::Note, at name_at desc_at namesz descsz kind header);
    tell!("elfsee_members", raw::Members, at names has_names none);
    tell!("elfsee_member", raw::Member, at content name is_cut none);
}
