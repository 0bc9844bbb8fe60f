//! Each call of the crate from a command line.
//!
//!     calls show FILE [PART]      the listing, or one part of it
//!     calls list FILE STYLE..     the listing with some of gnu, by-segments, json and versions
//!     calls names FILE PART STYLE.. NAME..
//!                                 the rows of these names
//!     calls hashed FILE [by-segments]
//!                                 the symbols of the hash table, as numbers; names in hexadecimal digits
//!     calls asked FILE            how many bytes of the file the listing reads
//!     calls find FILE NAME        the symbol and the steps
//!     calls resolve FILE NAME[@[@]VERSION] [by-segments]
//!                                 the symbol that a loader picks, and its version
//!     calls place FILE SECTION ITEM..
//!                                 the section in a borrowed layout, or what that lacks
//!     calls versions FILE         the version definitions, the needs, and the versions of symbols
//!     calls contents FILE         how many bytes each section has in the file, and their sum
//!     calls rows FILE..           all rows, as numbers; names in hexadecimal digits
//!     calls named FILE PART       the sections, the symbols or the dynamic entries with their names, escaped as in a
//!                                 listing, and the program headers, by the iterators
//!     calls members ARCHIVE       the members of an archive likewise, with the listing of each ELF file

use elfsee::{DynamicEntries, Error, File, Notes, Refused, Text, Wanted};
use std::process::exit;

fn hex(bytes: &[u8]) -> String {
    bytes.iter().map(|byte| format!("{byte:02x}")).collect()
}

/// The part of a listing that has this name; all parts without a name.
fn part(name: Option<&String>) -> u16 {
    match name.map(|name| &name[..]) {
        Some("header") => elfsee::HEADER,
        Some("sections") => elfsee::SECTIONS,
        Some("segments") => elfsee::SEGMENTS,
        Some("symbols") => elfsee::SYMBOLS,
        Some("relocs") => elfsee::RELOCS,
        Some("notes") => elfsee::NOTES,
        Some("dynamic") => elfsee::DYNAMIC,
        Some("versions") => elfsee::VERSIONS,
        _ => elfsee::ALL,
    }
}

/// A listing, or how many bytes it reads; the memory for it is doubled until it fits.
fn show(file: &File, parts: u16, is_counted: bool) -> Result<(), Error> {
    let (mut room, mut out) = (vec![0; file.room()], vec![0; 4096]);
    loop {
        match file.show(parts, &mut room, &mut out) {
            Err(Error::Full) => out = vec![0; 2 * out.len()],
            Err(error) => return Err(error),
            Ok(listing) if is_counted => {
                println!("{}", listing.asked);
                return Ok(());
            }
            Ok(listing) => {
                print!("{}", listing.text);
                return listing.refused.map_or(Ok(()), |refused| Err(refused.into()));
            }
        }
    }
}

/// The words of styles.
const STYLES: [&str; 4] = ["gnu", "by-segments", "json", "versions"];

/// The style that some words give.
fn style(words: &[String]) -> elfsee::Style {
    let has = |word: &str| words.iter().any(|one| one == word);
    let (gnu, by_segments, json, versions) =
        (has(STYLES[0]), has(STYLES[1]), has(STYLES[2]), has(STYLES[3]));
    elfsee::Style { gnu, by_segments, json, versions }
}

/// The rows of names, with some styles before them.
fn names(file: &File, part: u16, words: &[String]) -> Result<(), Error> {
    let count = words.iter().take_while(|word| STYLES.contains(&&word[..])).count();
    let mut texts: Vec<Text> = words[count..].iter().map(|word| Text::new(word.as_bytes())).collect();
    texts.sort();
    let (mut room, mut out) = (vec![0; file.room()], vec![0; 64]);
    loop {
        match file.show_names(style(&words[..count]), part, &texts, &mut room, &mut out) {
            Err(Error::Full) => out = vec![0; 2 * out.len()],
            Err(error) => return Err(error),
            Ok(listing) => {
                print!("{}", listing.text);
                return listing.refused.map_or(Ok(()), |refused| Err(refused.into()));
            }
        }
    }
}

/// The symbols of the hash table.
fn hashed(file: &File, by_segments: bool) -> Result<(), Error> {
    for symbol in file.hashed_symbols(by_segments, &mut vec![0; file.room()])?.named() {
        let (symbol, name) = symbol?;
        println!("{} {} {} {}", symbol.value, symbol.size, symbol.section, hex(name));
    }
    Ok(())
}

/// A listing in a style, with all parts that it has.
fn list(file: &File, words: &[String]) -> Result<(), Error> {
    let style = style(words);
    let parts = if style.gnu { elfsee::ALL | elfsee::VERSIONS } else { elfsee::ALL };
    let (mut room, mut out) = (vec![0; file.room()], vec![0; 4096]);
    loop {
        match file.show_in(style, parts, &mut room, &mut out) {
            Err(Error::Full) => out = vec![0; 2 * out.len()],
            Err(error) => return Err(error),
            Ok(listing) => {
                print!("{}", listing.text);
                return listing.refused.map_or(Ok(()), |refused| Err(refused.into()));
            }
        }
    }
}

fn find(file: &File, name: &[u8]) -> Result<(), Error> {
    let lookup = file.find(name, &mut vec![0; file.room()])?;
    match lookup.found {
        Some((symbol, index, section)) => println!("{section} {index} {} {}", symbol.value, lookup.steps),
        None => println!("absent {}", lookup.steps),
    }
    Ok(())
}

/// The query of a text NAME, NAME@VERSION or NAME@@VERSION.
fn wanted(text: &str, by_segments: bool) -> Wanted<'_> {
    let (name, version) = match text.split_once('@') {
        None => (text, None),
        Some((name, version)) => (name, Some(version)),
    };
    let default_only = version.map_or(false, |version| version.starts_with('@'));
    let version = version.map(|version| version[usize::from(default_only)..].as_bytes());
    Wanted { name: name.as_bytes(), version, default_only, by_segments }
}

fn resolve(file: &File, wanted: &Wanted) -> Result<(), Error> {
    let resolved = file.look_up(wanted, &mut vec![0; file.room()])?;
    let found = match resolved.found {
        Some(found) => found,
        None => {
            println!("absent {}", resolved.tried);
            return Ok(());
        }
    };
    print!("{} {} {} {}", found.table, found.index, found.symbol.value, resolved.tried);
    if let Some(version) = found.version {
        let (is_hidden, is_cut) = (u8::from(version.is_hidden), u8::from(version.is_cut));
        print!(" {} {} {is_hidden} {is_cut} {}", version.table, version.number, hex(version.name));
    }
    println!();
    Ok(())
}

fn contents(file: &File) -> Result<(), Error> {
    for index in 0..file.header()?.shnum {
        match file.content(index)? {
            None => println!("{index} none"),
            Some(content) => {
                let sum: u64 = content.iter().map(|byte| u64::from(*byte)).sum();
                println!("{index} {} {sum}", content.len());
            }
        }
    }
    Ok(())
}

fn symbols(file: &File, section: u16, room: &mut [u8]) -> Result<(), Error> {
    let mut rows = match file.symbols(section, room)? {
        Some(rows) => rows,
        None => return Ok(()),
    };
    while let Some(row) = rows.next() {
        let name = rows.name(row.name.into())?;
        println!(
            "Y {section} {} {} {} {} {} {} {} {}",
            row.value,
            row.size,
            row.section,
            row.info,
            row.kind(),
            row.binding(),
            row.other,
            hex(name)
        );
    }
    Ok(())
}

fn entries(file: &File, section: u16, room: &mut [u8]) -> Result<(), Error> {
    for row in file.relocations(section, room)?.into_iter().flatten() {
        println!("R {section} {} {} {} {}", row.offset, row.kind(), row.symbol(), row.addend);
    }
    Ok(())
}

fn notes(notes: Option<Notes>, header: u16) -> Result<(), Error> {
    for note in notes.into_iter().flatten() {
        let note = note?;
        let name = note.name.split(|byte| *byte == 0).next().unwrap_or(&[]);
        println!("N {header} {} {} {} {}", note.kind, note.name.len(), hex(name), hex(note.descriptor));
    }
    Ok(())
}

fn dynamic(rows: Option<DynamicEntries>, header: u16) {
    for row in rows.into_iter().flatten() {
        println!("D {header} {} {}", row.tag, row.value);
    }
}

/// Notes and dynamic entries, those of segments if there are no sections.
fn others(file: &File, sections: u16, segments: u16, room: &mut [u8]) -> Result<(), Error> {
    if sections == 0 {
        (0..segments).try_for_each(|index| notes(file.segment_notes(index)?, index))?;
        return (0..segments).try_for_each(|index| Ok(dynamic(file.segment_dynamic(index)?, index)));
    }
    (0..sections).try_for_each(|index| notes(file.notes(index)?, index))?;
    (0..sections).try_for_each(|index| Ok(dynamic(file.dynamic(index, room)?, index)))
}

fn rows(file: &File) -> Result<(), Error> {
    let mut room = vec![0; file.room()];
    let header = file.header()?;
    println!("H {} {} {} {}", header.kind, header.machine, header.entry, hex(&header.ident));
    let names = file.section_names(&mut room)?;
    for index in 0..header.shnum {
        let missing = Refused { cause: elfsee::Cause::Unknown, at: 0 };
        let row = file.section(index)?.ok_or(missing)?;
        let name = names.map_or(Ok(&b""[..]), |names| file.name(&names, row.name.into()))?;
        println!("S {index} {} {} {} {}", row.kind, row.offset, row.size, hex(name));
    }
    for index in 0..header.phnum {
        if let Some(row) = file.segment(index)? {
            println!("P {index} {} {} {}", row.kind, row.offset, row.filesz);
        }
    }
    let tables = header.shnum;
    (0..tables).try_for_each(|index| symbols(file, index, &mut room))?;
    (0..tables).try_for_each(|index| entries(file, index, &mut room))?;
    others(file, tables, header.phnum, &mut room)
}

/// Rows of one kind with their names; dynamic entries of the segments if there are no sections.
fn named(file: &File, kind: &str) -> Result<(), Error> {
    use elfsee::{abi, spelt};
    let mut room = vec![0; file.room()];
    let sections = file.sections(&mut room)?;
    match kind {
        "sections" => {
            for section in sections.named() {
                let (index, row, name) = section?;
                println!("S {index} {} {}", row.kind, spelt(name));
            }
        }
        "segments" => file.segments()?.for_each(|(index, row)| println!("P {index} {}", row.kind)),
        "symbols" => {
            for (index, _) in sections {
                let symbols = file.symbols(index, &mut room)?;
                for (at, symbol) in symbols.clone().into_iter().flat_map(|rows| rows.named()).enumerate() {
                    let (symbol, name) = symbol?;
                    assert_eq!(symbols.as_ref().and_then(|rows| rows.row(at as u64)), Some(symbol));
                    println!("Y {index} {} {}", symbol.visibility(), spelt(name));
                }
            }
        }
        _ if file.header()?.shnum == 0 => {
            for (index, _) in file.segments()? {
                let Some(rows) = file.segment_dynamic(index)? else { continue };
                let first = |tag| rows.clone().find(|row| row.tag == tag).map_or(0, |row| row.value);
                // If they are nowhere, the first entry that names a string is refused.
                let strings = file.mapped(first(abi::DT_STRTAB), first(abi::DT_STRSZ)).ok().flatten();
                let strings = strings.unwrap_or_default();
                entries_named(index, rows.named_in(file.names_in(&strings)))?;
            }
        }
        _ => {
            for (index, _) in sections {
                file.dynamic(index, &mut room)?.map_or(Ok(()), |rows| entries_named(index, rows.named()))?;
            }
        }
    }
    Ok(())
}

fn entries_named(table: u16, rows: elfsee::Named<elfsee::Dynamic>) -> Result<(), Error> {
    for row in rows {
        let (row, name) = row?;
        println!("D {table} {} {}", row.tag, elfsee::spelt(name));
    }
    Ok(())
}

/// A section in the layout of some items.
fn place(file: &File, words: &[String]) {
    use elfsee::{Layout, NameAddress, SectionAddress};
    let (mut sections, mut names) = (Vec::new(), [(); 4].map(|_| Vec::new()));
    for word in &words[1..] {
        let (key, address) = word.rsplit_once('=').expect("an address");
        let address = u64::from_str_radix(&address[2..], 16).expect("an address");
        let (kind, key) = key.split_once(':').expect("a kind");
        match ["def", "plt", "got", "tpgot"].iter().position(|one| *one == kind) {
            Some(sort) => names[sort].push(NameAddress::new(key.as_bytes(), address)),
            None => sections.push(SectionAddress::new(key.parse().expect("an index"), address)),
        }
    }
    sections.sort();
    names.iter_mut().for_each(|list| list.sort());
    let [definitions, linkage, table, thread] = &names;
    let layout = Layout { sections: &sections, definitions, linkage, table, thread };
    let section = words[0].parse().expect("an index");
    let mut out = vec![0; file.bytes().len()];
    match file.apply_lent(section, &layout, &mut vec![0; file.room()], &mut out) {
        Ok(bytes) => println!("{}", hex(bytes)),
        Err(unapplied) => match unapplied.missing {
            None => println!("! {unapplied}, nothing"),
            Some(missing) => {
                let index = missing.section().map_or("none".to_string(), |index| index.to_string());
                let helps: String = [
                    missing.definition_helps(),
                    missing.linkage_helps(),
                    missing.table_helps(),
                    missing.thread_helps(),
                ]
                .map(|helps| if helps { '1' } else { '0' })
                .iter()
                .collect();
                let (kind, name, is_cut) =
                    (missing.relocation(), hex(missing.name()), u8::from(missing.is_cut()));
                println!("! {unapplied}, {index} {helps} {kind} {name} {is_cut}");
            }
        },
    }
}

/// The version definitions, the needs, and the versions of symbols.
fn versions(file: &File) -> Result<(), Error> {
    use elfsee::{abi, VersionKind};
    let mut room = vec![0; file.room()];
    for kind in [abi::SHT_GNU_VERDEF, abi::SHT_GNU_VERNEED] {
        for (index, section) in file.sections(&mut room)? {
            let Some(records) = file.version_records(index, &mut room)? else { continue };
            for record in records.take_while(|_| section.kind == kind) {
                let record = record?;
                let kind = match record.kind {
                    VersionKind::Definition => 1,
                    VersionKind::File => 2,
                    VersionKind::Need => 3,
                };
                let (number, is_hidden) = (record.number, u8::from(record.is_hidden));
                let (names_it, name) = (u8::from(record.names_version()), hex(record.name));
                println!("V {index} {kind} {number} {is_hidden} {} {} {names_it} {name}", record.flags, record.hash);
            }
        }
    }
    for (index, _) in file.sections(&mut room)? {
        for word in file.version_words(index, &mut room)?.into_iter().flatten() {
            println!("X {index} {} {}", word.number, word.is_hidden);
        }
    }
    Ok(())
}

/// The members of an archive: where each is, and what its listing has of the file header.
fn members(file: &File) -> Result<(), Error> {
    for member in file.members()? {
        let member = member?;
        let (name, size) = (hex(member.name), member.content.len());
        println!("A {} {} {size} {} {name}", member.at, member.content_at, u8::from(member.is_cut));
        if member.content.starts_with(b"\x7fELF") {
            let one = File::new(member.content);
            print!("{}", one.show(elfsee::HEADER, &mut vec![0; one.room()], &mut [0; 256])?.text);
        }
    }
    Ok(())
}

fn main() {
    let words: Vec<String> = std::env::args().skip(1).collect();
    let mut ended = 0;
    for path in if words[0] == "rows" { &words[1..] } else { &words[1..2] } {
        let bytes = std::fs::read(path).expect("a file");
        let file = File::new(&bytes);
        let done = match &words[0][..] {
            "show" => show(&file, part(words.get(2)), false),
            "asked" => show(&file, elfsee::ALL, true),
            "list" => list(&file, &words[2..]),
            "names" => names(&file, part(words.get(2)), &words[3..]),
            "hashed" => hashed(&file, words.len() > 2),
            "find" => find(&file, words[2].as_bytes()),
            "resolve" => resolve(&file, &wanted(&words[2], words.len() > 3)),
            "contents" => contents(&file),
            "versions" => versions(&file),
            "place" => {
                place(&file, &words[2..]);
                Ok(())
            }
            "members" => members(&file),
            "named" => named(&file, &words[2]),
            _ => rows(&file),
        };
        if let Err(error) = done {
            ended = 1;
            if words[0] != "show" && words[0] != "list" && words[0] != "names" {
                println!("! {error}");
            }
        }
    }
    exit(ended)
}
