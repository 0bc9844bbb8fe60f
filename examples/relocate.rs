//! A linker's step: one section of an object file, with its relocations applied, written to a file.
//!
//!     relocate OBJECT SECTION ADDRESS OUT [NAME=ADDRESS]..
//!
//! SECTION is a name, such as `.text`. The sections that a program keeps in memory are laid out consecutively
//! from ADDRESS, each with its alignment, and NAME=ADDRESS says where an undefined symbol is.
//! It prints where each section is. With the library in library/out:
//!
//!     rustc --edition 2021 --crate-type rlib --crate-name elfsee -L library/out -l static=elfsee \
//!         library/rust/src/lib.rs
//!     rustc --edition 2021 --extern elfsee=libelfsee.rlib examples/relocate.rs

use elfsee::{File, Item, Section};
use std::fmt::Display;

const ALLOCATED: u64 = 2;
const NO_BYTES: u32 = 8;

fn text(error: impl Display) -> String {
    error.to_string()
}

/// A name as elfsee escapes it: nothing of it acts on a terminal.
fn spelt(name: &[u8]) -> String {
    let spell = |&byte: &u8| match byte {
        b'\\' => "\\\\".into(),
        b' '..=b'~' => char::from(byte).to_string(),
        _ => format!("\\x{byte:02x}"),
    };
    name.iter().map(spell).collect()
}

/// Parses a number, hexadecimal after `0x`.
fn number(word: &str) -> Result<u64, String> {
    match word.strip_prefix("0x") {
        Some(digits) => u64::from_str_radix(digits, 16),
        None => word.parse(),
    }
    .map_err(|_| format!("{word} is no number"))
}

/// The lowest address not below `address` at which a section may be.
fn aligned(address: u64, section: &Section) -> Option<u64> {
    let align = section.addralign.max(1);
    address.checked_add(align - 1).map(|end| end / align * align)
}

/// The section with a name, and the addresses of all that a program keeps in memory.
fn placed(file: &File, wanted: &[u8], mut address: u64) -> Result<(u16, Vec<Item<'static>>), String> {
    let mut room = vec![0; file.room()];
    let names = file.section_names(&mut room).map_err(text)?.ok_or("the sections have no names")?;
    let (mut found, mut layout) = (None, Vec::new());
    for index in 0..file.header().map_err(text)?.shnum {
        let section = file.section(index).map_err(text)?.ok_or("a section is missing")?;
        let name = file.name(&names, section.name.into()).map_err(text)?;
        if name == wanted {
            found = found.or(Some(index));
        }
        if section.flags & ALLOCATED != 0 {
            let start = aligned(address, &section).ok_or("the addresses are used up")?;
            println!("{start:016x} {}", spelt(name));
            layout.push(Item::section(index, start));
            address = start.checked_add(section.size).ok_or("the addresses are used up")?;
        }
    }
    Ok((found.ok_or("there is no such section")?, layout))
}

fn run(words: &[String]) -> Result<(), String> {
    let (object, wanted, address, out, definitions) = match words {
        [object, wanted, address, out, definitions @ ..] => (object, wanted, address, out, definitions),
        _ => return Err("relocate OBJECT SECTION ADDRESS OUT [NAME=ADDRESS]..".into()),
    };
    let bytes = std::fs::read(object).map_err(text)?;
    let file = File::new(&bytes);
    let (index, mut layout) = placed(&file, wanted.as_bytes(), number(address)?)?;
    for word in definitions {
        let (name, address) = word.rsplit_once('=').ok_or_else(|| format!("{word} has no address"))?;
        layout.push(Item::define(name.as_bytes(), number(address)?));
    }
    let section = file.section(index).map_err(text)?.ok_or("a section is missing")?;
    // A section that is longer than the file is refused: it needs no more room than the file has.
    let size = if section.kind == NO_BYTES { 0 } else { section.size.min(bytes.len() as u64) };
    let (mut room, mut applied) = (vec![0; file.room()], vec![0; size as usize]);
    let applied = file.apply(index, &layout, &mut room, &mut applied).map_err(text)?;
    std::fs::write(out, applied).map_err(text)
}

fn main() {
    let words: Vec<String> = std::env::args().skip(1).collect();
    if let Err(error) = run(&words) {
        eprintln!("relocate: {error}");
        std::process::exit(1);
    }
}
