//! Images of segments, and what they need, from a command line.
//!
//!     images image FILE WINDOW SEGMENT [--leave] ITEM..
//!                                 the bytes of a segment, in hexadecimal digits
//!     images lacking FILE EACH ITEM..
//!                                 the entries that lack an item, EACH in one call
//!     images located FILE         the relocations that dynamic entries locate
//!
//! An item is that of the program's command `image`.

use elfsee::{CopiedObject, Error, File, ImageItem, ImageItems, Lacking, LocatedRows, LocatedTable};
use std::process::exit;

fn number(text: &str) -> u64 {
    match text.strip_prefix("0x") {
        Some(digits) => u64::from_str_radix(digits, 16).expect("a number"),
        None => text.parse().expect("a number"),
    }
}

/// The numbers and the copied bytes that some words give, sorted.
fn items(words: &[String]) -> (Vec<ImageItem>, Vec<(u32, Vec<u8>)>) {
    let (mut numbers, mut copies) = (Vec::new(), Vec::new());
    for word in words {
        let (key, value) = word.rsplit_once('=').expect("a value");
        let (kind, key) = key.split_once(':').unwrap_or((key, "0"));
        let index = || key.parse().expect("an index");
        numbers.push(match kind {
            "base" => ImageItem::base(number(value)),
            "desc" => ImageItem::descriptor(number(value)),
            "sym" => ImageItem::symbol(index(), number(value)),
            "call" => ImageItem::call(index(), number(value)),
            "mod" => ImageItem::module(index(), number(value)),
            "dtp" => ImageItem::value(index(), number(value)),
            "tp" => ImageItem::offset(index(), number(value)),
            "ires" => ImageItem::resolver(number(key), number(value)),
            _ => {
                let digits = value.as_bytes().chunks(2).map(|pair| std::str::from_utf8(pair).expect("digits"));
                copies.push((index(), digits.map(|pair| u8::from_str_radix(pair, 16).expect("digits")).collect()));
                continue;
            }
        });
    }
    numbers.sort();
    copies.sort();
    (numbers, copies)
}

fn image(file: &File, words: &[String]) -> Result<(), Error> {
    let partial = words.get(2).is_some_and(|word| word == "--leave");
    let (numbers, bytes) = items(&words[2 + usize::from(partial)..]);
    let copies: Vec<_> = bytes.iter().map(|(index, bytes)| CopiedObject::new(*index, bytes)).collect();
    let items = ImageItems { numbers: &numbers, copies: &copies, partial };
    let (mut room, mut window) = (vec![0; file.room()], vec![0; number(&words[0]) as usize]);
    let mut out = vec![0; 64];
    loop {
        match file.image(number(&words[1]) as u16, &items, &mut room, &mut window, &mut out) {
            Err(Error::Full) => out = vec![0; 4 * out.len()],
            Err(error) => return Err(error),
            Ok(bytes) => {
                println!("{}", bytes.iter().map(|byte| format!("{byte:02x}")).collect::<String>());
                return Ok(());
            }
        }
    }
}

fn lacking(file: &File, words: &[String]) -> Result<(), Error> {
    let (numbers, _) = items(&words[1..]);
    let items = ImageItems { numbers: &numbers, ..ImageItems::default() };
    let (mut room, mut index) = (vec![0; file.room()], 0);
    let mut rows = vec![Lacking::default(); number(&words[0]) as usize];
    loop {
        let entries = file.lacking(&items, &mut room, &mut index, &mut rows)?;
        if entries.is_empty() {
            return Ok(());
        }
        for entry in entries {
            println!("{} {} {} {} {}", entry.at, entry.place, entry.kind, entry.symbol, entry.lacks().number());
        }
    }
}

fn located(file: &File) -> Result<(), Error> {
    let mut room = vec![0; file.room()];
    for table in [LocatedTable::Relr, LocatedTable::Rel, LocatedTable::Rela, LocatedTable::Jmprel] {
        let number = table as u32;
        match file.located_relocations(table, &mut room)? {
            None => {}
            Some(LocatedRows::Relative(addresses)) => {
                for address in addresses {
                    println!("{number} {} None 0 None", address?);
                }
            }
            Some(LocatedRows::Short(entries)) => {
                for entry in entries {
                    println!("{number} {} {} {} None", entry.offset, entry.kind(), entry.symbol());
                }
            }
            Some(LocatedRows::WithAddends(entries)) => {
                for entry in entries {
                    println!("{number} {} {} {} {}", entry.offset, entry.kind(), entry.symbol(), entry.addend);
                }
            }
        }
    }
    Ok(())
}

fn main() {
    let words: Vec<String> = std::env::args().skip(1).collect();
    let bytes = std::fs::read(&words[1]).expect("a file");
    let file = File::new(&bytes);
    let done = match &words[0][..] {
        "image" => image(&file, &words[2..]),
        "lacking" => lacking(&file, &words[2..]),
        _ => located(&file),
    };
    if let Err(error) = done {
        println!("! {error}");
        exit(1)
    }
}
