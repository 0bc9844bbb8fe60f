//! What is outside its range is refused, and what is empty ends well.

use elfsee::{Cause, Error, File, Item, Limits, Refused, Wanted};

/// A file header alone: a relocatable file for x86-64 without sections.
fn header() -> [u8; 64] {
    let mut bytes = [0; 64];
    bytes[..7].copy_from_slice(b"\x7fELF\x02\x01\x01");
    bytes[16] = 1;
    bytes[18] = 62;
    bytes
}

fn apply(layout: &[Item]) -> Result<(), Error> {
    File::new(&header()).apply(1, layout, &mut [0; 64], &mut []).map(|_| ())
}

#[test]
fn short_files_are_refused() {
    for length in 0..64 {
        let bytes = &header()[..length];
        let (file, mut room, mut out) = (File::new(bytes), [0; 64], [0; 100]);
        let short = Refused { cause: Cause::Short, at: length as u64 };
        assert_eq!(file.header(), Err(short));
        assert_eq!(file.section(0), Err(short));
        assert_eq!(file.find(b"x", &mut room), Err(short.into()));
        assert_eq!(file.look_up(&Wanted::name(b"x"), &mut room), Err(short.into()));
        assert_eq!(file.content(0), Err(short));
        assert_eq!(file.apply(1, &[], &mut room, &mut []), Err(short.into()));
        assert_eq!(file.symbols(0, &mut room).err(), Some(short.into()));
        assert_eq!(file.segment_dynamic(0).err(), Some(short));
        assert_eq!(file.notes(0).err(), Some(short));
        assert_eq!(file.segment_notes(0).err(), Some(short));
        assert_eq!(file.mapped(0, 1), Err(short));
        let listing = file.show(elfsee::ALL, &mut room, &mut out).unwrap();
        assert_eq!(listing.text, format!("! {:016x} short\n", length));
        assert_eq!(listing.refused, Some(short));
        assert_eq!(file.room(), 64);
    }
}

#[test]
fn numbers_are_parted() {
    let symbol = elfsee::Symbol { info: 0xaa, other: 0xfe, ..Default::default() };
    assert_eq!((symbol.kind(), symbol.binding(), symbol.visibility()), (10, 10, 2));
    let symbol = elfsee::Symbol { info: 0x1f, other: 0xf9, ..Default::default() };
    assert_eq!((symbol.kind(), symbol.binding(), symbol.visibility()), (15, 1, 1));
    let entry = elfsee::Relocation { info: 0x1234_5678_9abc_def0, ..Default::default() };
    assert_eq!((entry.symbol(), entry.kind()), (0x1234_5678, 0x9abc_def0));
}

#[test]
fn the_limits_are_the_programs_where_nobody_says_them() {
    assert_eq!(Limits::default(), Limits { headers: 4096, name: 256, budget: None });
}

#[test]
fn outputs_without_room_are_full() {
    let bytes = header();
    let file = File::new(&bytes);
    for length in 0..90 {
        assert_eq!(file.show(elfsee::HEADER, &mut [0; 64], &mut vec![0; length]), Err(Error::Full));
    }
    assert_eq!(file.show(elfsee::HEADER, &mut [0; 64], &mut [0; 91]).unwrap().text.len(), 91);
    assert_eq!(file.show(0, &mut [0; 64], &mut []).unwrap().text, "");
}

#[test]
fn too_little_room_is_a_bad_call() {
    let bytes = header();
    let file = File::new(&bytes);
    for length in [0, 1, 63] {
        let mut room = vec![0; length];
        assert_eq!(file.show(elfsee::ALL, &mut room, &mut [0; 100]), Err(Error::BadCall));
        assert_eq!(file.find(b"x", &mut room), Err(Error::BadCall));
        assert_eq!(file.look_up(&Wanted::name(b"x"), &mut room), Err(Error::BadCall));
        assert_eq!(file.apply(1, &[], &mut room, &mut []), Err(Error::BadCall));
        assert_eq!(file.symbols(1, &mut room).err(), Some(Error::BadCall));
        assert_eq!(file.section_names(&mut room), Err(Error::BadCall));
    }
}

#[test]
fn limits_have_ranges() {
    let bytes = header();
    for limits in [
        Limits { headers: 0, ..Limits::default() },
        Limits { headers: 65280, ..Limits::default() },
        Limits { name: 0, ..Limits::default() },
        Limits { name: 4097, ..Limits::default() },
    ] {
        let file = File::with_limits(&bytes, limits);
        assert_eq!(file.show(elfsee::ALL, &mut [0; 64], &mut [0; 100]), Err(Error::BadCall));
    }
    let file = File::with_limits(&bytes, Limits { budget: Some(63), ..Limits::default() });
    let listing = file.show(elfsee::ALL, &mut [0; 64], &mut [0; 100]).unwrap().refused;
    assert_eq!(listing, Some(Refused { cause: Cause::Budget, at: 0 }));
    let mut out = [0; 100];
    let nothing = File::with_limits(&bytes, Limits { budget: Some(0), ..Limits::default() });
    let listing = nothing.show(elfsee::ALL, &mut [0; 64], &mut out).unwrap();
    assert_eq!((listing.refused, listing.asked), (Some(Refused { cause: Cause::Budget, at: 0 }), 0));
    let listing = File::new(&bytes).show(elfsee::HEADER, &mut [0; 64], &mut out).unwrap();
    assert_eq!((listing.refused, listing.asked), (None, 64));
}

#[test]
fn names_have_ranges() {
    let bytes = header();
    let file = File::new(&bytes);
    assert_eq!(file.find(b"a\0b", &mut [0; 64]), Err(Error::BadCall));
    assert_eq!(file.find(&[b'a'; 4097], &mut [0; 64]), Err(Error::BadCall));
    for name in [&b"a\0b"[..], &[b'a'; 4097]] {
        assert_eq!(file.look_up(&Wanted::name(name), &mut [0; 64]), Err(Error::BadCall));
        assert_eq!(file.look_up(&Wanted::versioned(b"a", name), &mut [0; 64]), Err(Error::BadCall));
    }
    assert_eq!(file.look_up(&Wanted::versioned(b"a", b""), &mut [0; 64]), Err(Error::BadCall));
    let wanted =
        Wanted { default_only: true, by_segments: true, ..Wanted::versioned(&[b'a'; 4096], &[b'b'; 4096]) };
    assert!(matches!(file.look_up(&wanted, &mut [0; 64]), Err(Error::Refused(_))));
    for name in [&b""[..], b"a\0", &[b'a'; 256]] {
        assert_eq!(apply(&[Item::define(name, 0)]), Err(Error::BadCall));
        assert_eq!(apply(&[Item::entry(name, 0)]), Err(Error::BadCall));
        assert_eq!(apply(&[Item::table(name, 0)]), Err(Error::BadCall));
        assert_eq!(apply(&[Item::thread(name, 0)]), Err(Error::BadCall));
    }
}

#[test]
fn layouts_have_bounds() {
    let sections: Vec<_> = (1..66).map(|index| Item::section(index, 0)).collect();
    assert_eq!(apply(&sections), Err(Error::BadCall));
    assert!(matches!(apply(&sections[..64]), Err(Error::Refused(_))));
    let names: Vec<_> = (0..33).map(|number| format!("n{}", number)).collect();
    for item in [Item::define, Item::entry, Item::table, Item::thread] {
        let items: Vec<_> = names.iter().map(|name| item(name.as_bytes(), 0)).collect();
        assert_eq!(apply(&items), Err(Error::BadCall));
        assert!(matches!(apply(&items[..32]), Err(Error::Refused(_))));
        assert_eq!(apply(&[items[0], items[0]]), Err(Error::BadCall));
    }
    assert_eq!(apply(&[Item::section(1, 0), Item::section(1, 1)]), Err(Error::BadCall));
}

/// A section header: its type, offset, size, link, info and the size of an entry.
fn section(kind: u8, offset: u8, size: u8, link: u8, info: u8, entry: u8) -> [u8; 64] {
    let mut bytes = [0; 64];
    (bytes[4], bytes[24], bytes[32]) = (kind, offset, size);
    (bytes[40], bytes[44], bytes[56]) = (link, info, entry);
    bytes
}

/// An object whose section 1 has a call with one relocation entry, of a type, for the undefined symbol `f`.
fn call(kind: u8) -> Vec<u8> {
    let mut bytes = header().to_vec();
    (bytes[40], bytes[58], bytes[60]) = (0x98, 64, 5);
    bytes.extend([0xe8, 0, 0, 0, 0, 0, 0, 0]);
    for word in [1, 1 << 32 | u64::from(kind), (-4i64) as u64, 0, 0, 0, 0x10 << 32 | 1, 0, 0] {
        bytes.extend(word.to_le_bytes());
    }
    bytes.extend(b"\0f\0\0\0\0\0\0");
    bytes.extend([0; 64]);
    for header in [
        section(1, 0x40, 5, 0, 0, 0),
        section(4, 0x48, 24, 3, 1, 24),
        section(2, 0x60, 48, 4, 1, 24),
        section(3, 0x90, 3, 0, 0, 0),
    ] {
        bytes.extend(header);
    }
    bytes
}

#[test]
fn each_kind_of_item_is_its_own() {
    let items = [
        Item::define(b"f", 0x2000),
        Item::entry(b"f", 0x2000),
        Item::table(b"f", 0x2000),
        Item::thread(b"f", 0x2000),
    ];
    // R_X86_64_PC32, PLT32, GOTPCREL and GOTTPOFF: which of the items each takes, and the cause if it takes none.
    let types = [
        (2, [true, false, false, false], Cause::Undefined),
        (4, [true, true, false, false], Cause::Undefined),
        (9, [false, false, true, false], Cause::Unsupported),
        (22, [false, false, false, true], Cause::Unsupported),
    ];
    for (kind, takes, cause) in types {
        for (item, is_taken) in items.into_iter().zip(takes) {
            let (bytes, mut room, mut out) = (call(kind), [0; 320], [0; 5]);
            let got = File::new(&bytes).apply(1, &[Item::section(1, 0x1000), item], &mut room, &mut out);
            let wanted = if is_taken {
                Ok(&[0xe8, 0xfb, 0x0f, 0, 0][..])
            } else {
                Err(Refused { cause, at: 0x48 }.into())
            };
            assert_eq!(got, wanted, "{kind} {item:?}");
        }
    }
}

#[test]
fn what_is_not_there_is_absent() {
    let bytes = header();
    let file = File::new(&bytes);
    assert_eq!(file.section(0), Ok(None));
    assert_eq!(file.content(0), Ok(None));
    assert_eq!(file.segment(65535), Ok(None));
    assert!(file.symbols(0, &mut [0; 64]).unwrap().is_none());
    assert!(file.relocations(7, &mut [0; 64]).unwrap().is_none());
    assert!(file.dynamic(65535, &mut [0; 64]).unwrap().is_none());
    assert!(file.segment_dynamic(0).unwrap().is_none());
    assert!(file.notes(0).unwrap().is_none());
    assert!(file.segment_notes(65535).unwrap().is_none());
    assert_eq!(file.mapped(0, 0), Ok(None));
    assert_eq!(file.mapped(u64::MAX, u64::MAX), Ok(None));
    assert_eq!(file.section_names(&mut [0; 64]), Ok(None));
}

/// A file with one program header, of a type, whose bytes in the file are these at the address 0x1000.
fn segment(kind: u8, content: &[u8]) -> Vec<u8> {
    let mut bytes = header().to_vec();
    (bytes[32], bytes[54], bytes[56]) = (64, 56, 1);
    bytes.extend([0; 56]);
    (bytes[64], bytes[72], bytes[81], bytes[96]) = (kind, 120, 0x10, content.len() as u8);
    bytes.extend(content);
    bytes
}

#[test]
fn segments_have_rows() {
    let entries: Vec<u8> =
        [5u64, 0x1000, 10, 4, 0, 7, 1, 1].iter().flat_map(|word| word.to_le_bytes()).collect();
    let bytes = segment(2, &entries);
    let rows = File::new(&bytes).segment_dynamic(0).unwrap().unwrap();
    assert_eq!((rows.total(), rows.place()), (3, (120, 16)));
    assert_eq!(rows.map(|row| (row.tag, row.value)).collect::<Vec<_>>(), [(5, 0x1000), (10, 4), (0, 7)]);
    let bytes = segment(2, &entries[..63]);
    let part = Refused { cause: Cause::SizeNotWhole, at: 64 };
    assert_eq!(File::new(&bytes).segment_dynamic(0).err(), Some(part));
    let bytes = segment(2, &entries);
    let cut = Refused { cause: Cause::TableOutside, at: 64 };
    assert_eq!(File::new(&bytes[..183]).segment_dynamic(0).err(), Some(cut));
    assert!(File::new(&bytes).segment_notes(0).unwrap().is_none());
}

#[test]
fn addresses_are_mapped() {
    let bytes = segment(1, &[7; 16]);
    let file = File::new(&bytes);
    assert_eq!(file.mapped(0x1004, 12), Ok(Some(elfsee::Range { at: 124, len: 12 })));
    assert_eq!(file.mapped(0x1010, 0), Ok(Some(elfsee::Range { at: 136, len: 0 })));
    assert_eq!(file.mapped(0x1004, 13), Ok(None));
    assert_eq!(file.mapped(0xfff, 1), Ok(None));
    let cut = Refused { cause: Cause::TableOutside, at: 64 };
    assert_eq!(File::new(&bytes[..135]).mapped(0x1004, 12), Err(cut));
}

#[test]
fn notes_end_behind_the_first_refusal() {
    let note: Vec<u8> = [4u32, 2, 9].iter().flat_map(|word| word.to_le_bytes()).collect();
    let bytes = segment(4, &[&note[..], b"GNU\0ab\0\0", &note[..]].concat());
    let mut notes = File::new(&bytes).segment_notes(0).unwrap().unwrap();
    let first = notes.next().unwrap().unwrap();
    assert_eq!((first.name, first.descriptor, first.kind, first.at), (&b"GNU\0"[..], &b"ab"[..], 9, 120));
    assert_eq!(notes.next(), Some(Err(Refused { cause: Cause::NoteCut, at: 140 })));
    assert_eq!(notes.next(), None);
}

/// A member of an archive: a header of 60 bytes of text, the data, and one more byte if their size is odd.
fn member(name: &str, content: &str) -> String {
    let padding = if content.len() % 2 == 1 { "\n" } else { "" };
    format!("{name:<48}{:<10}`\n{content}{padding}", content.len())
}

#[test]
fn members_end_behind_the_first_refusal() {
    let bytes =
        ["!<arch>\n", &member("//", "a_long_name.o/\n"), &member("/0", "odd"), &member("/15", "")].concat();
    let mut members = File::new(bytes.as_bytes()).members().unwrap();
    let table = members.next().unwrap().unwrap();
    assert_eq!((table.name, table.content), (&b"//"[..], &b"a_long_name.o/\n"[..]));
    let named = members.next().unwrap().unwrap();
    assert_eq!((named.name, named.content, named.is_cut), (&b"a_long_name.o"[..], &b"odd"[..], false));
    assert_eq!((named.at, named.content_at), (84, 144));
    assert_eq!(members.next(), Some(Err(Refused { cause: Cause::NameOutside, at: 148 })));
    assert_eq!(members.next(), None);
    let whole = File::new(&bytes.as_bytes()[..148]);
    assert!(whole.members().unwrap().all(|member| member.is_ok()));
    let cut = File::new(&bytes.as_bytes()[..207]).members().unwrap().last().unwrap();
    assert_eq!(cut, Err(Refused { cause: Cause::MemberCut, at: 148 }));
}

#[test]
fn other_files_have_no_members() {
    let refusal = |bytes: &[u8]| File::new(bytes).members().err();
    assert_eq!(refusal(&header()), Some(Refused { cause: Cause::NotArchive, at: 0 }));
    assert_eq!(refusal(b"!<thin>\n"), Some(Refused { cause: Cause::Thin, at: 0 }));
    assert_eq!(refusal(b"!<arch>"), Some(Refused { cause: Cause::Short, at: 0 }));
    assert_eq!(refusal(b"!<arch>\n"), None);
}

#[test]
fn headers_are_gone_through() {
    let bytes = segment(1, &[7; 16]);
    let segments: Vec<_> = File::new(&bytes).segments().unwrap().map(|(at, row)| (at, row.kind)).collect();
    assert_eq!(segments, [(0, 1)]);
    let outside = Refused { cause: Cause::TableOutside, at: 32 };
    assert_eq!(File::new(&bytes[..119]).segments().err(), Some(outside));
    let short = Refused { cause: Cause::Short, at: 63 };
    assert_eq!(File::new(&bytes[..63]).segments().err(), Some(short));
    assert_eq!(File::new(&bytes[..63]).sections(&mut [0; 64]).err(), Some(short.into()));
    assert_eq!(File::new(&bytes).sections(&mut [0; 63]).err(), Some(Error::BadCall));
    let mut sections = File::new(&bytes).sections(&mut [0; 64]).unwrap();
    assert!(sections.names().is_none());
    assert_eq!(sections.next(), None);
}

/// A file with dynamic entries in a segment, and bytes after them.
fn dynamic(entries: &[(u64, u64)], strings: &[u8]) -> Vec<u8> {
    let words = entries.iter().flat_map(|(tag, value)| [tag.to_le_bytes(), value.to_le_bytes()]);
    let mut bytes = segment(2, &words.flatten().collect::<Vec<u8>>());
    bytes.extend(strings);
    bytes
}

#[test]
fn named_rows_end_behind_the_first_refusal() {
    let bytes = dynamic(&[(5, 0), (1, 1), (14, 2), (1, 7), (1, 1)], b"\0a\0\\b");
    let file = File::new(&bytes);
    let strings = file.names_in(&elfsee::Range { at: 200, len: 5 });
    assert_eq!(strings.range(), elfsee::Range { at: 200, len: 5 });
    let mut rows = file.segment_dynamic(0).unwrap().unwrap();
    assert_eq!((rows.row(3).unwrap().value, rows.row(5)), (7, None));
    let mut all = rows.clone().named_in(strings);
    let names: Vec<_> = all.by_ref().take(3).map(|row| row.unwrap().1).collect();
    assert_eq!(names, [&b""[..], b"a", b""]);
    // The place of a refusal is the row's, wherever the iterator of the rows was.
    let outside = Err(Refused { cause: Cause::NameOutside, at: 120 + 3 * 16 });
    assert_eq!((all.next(), all.next()), (Some(outside), None));
    rows.nth(1);
    let mut rest = rows.named_in(strings);
    assert_eq!(rest.next().unwrap().unwrap().1, b"");
    assert_eq!((rest.next(), rest.next()), (Some(outside), None));
    assert_eq!(strings.at(3), Err(Refused { cause: Cause::NameUnended, at: 203 }));
}

#[test]
fn errors_are_errors() {
    fn told(error: impl core::error::Error + 'static) -> String {
        Box::<dyn std::error::Error>::from(error).to_string()
    }
    let refused = Refused { cause: Cause::Short, at: 3 };
    assert_eq!((told(refused), told(Error::from(refused))), ("short at 0x3".into(), "short at 0x3".into()));
    assert_eq!(told(Error::Full), "no room for the answer");
}

#[test]
fn each_byte_is_spelt() {
    for byte in 0..=255 {
        let wanted = match byte {
            b'\\' => r"\\".to_string(),
            0x20..=0x7e => char::from(byte).to_string(),
            _ => format!("\\x{byte:02x}"),
        };
        assert_eq!(elfsee::spelt(&[byte]).to_string(), wanted);
    }
    assert_eq!(elfsee::spelt(b"").to_string(), "");
}

#[test]
fn names_lie_in_any_bytes() {
    let file = File::new(b"\0ab\0cd");
    let all = elfsee::Range { at: 0, len: 6 };
    assert_eq!(file.name(&all, 0), Ok(&b""[..]));
    assert_eq!(file.name(&all, 2), Ok(&b"b"[..]));
    assert_eq!(file.name(&all, 4).unwrap_err().cause, Cause::NameUnended);
    assert_eq!(file.name(&all, 6).unwrap_err().cause, Cause::NameOutside);
    let beyond = elfsee::Range { at: u64::MAX, len: u64::MAX };
    assert!(file.name(&beyond, u64::MAX).is_err());
}

/// The word of a cause from its name: its parts in lower case, joined by hyphens.
fn word_of_name(cause: Cause) -> String {
    let mut word = String::new();
    for letter in format!("{cause:?}").chars() {
        if letter.is_uppercase() && !word.is_empty() {
            word.push('-');
        }
        word.extend(letter.to_lowercase());
    }
    match &word[..] {
        "bad-class" | "bad-data" | "bad-version" => word[4..].to_string(),
        _ => word,
    }
}

#[test]
fn causes_have_words_and_numbers() {
    for number in 1..64 {
        let (cause, mut out) = (Cause::of_number(number), [0; 32]);
        // SAFETY: `out` is as long as is said.
        let length = unsafe { elfsee::raw::elfsee_cause_word(number, out.as_mut_ptr(), out.len()) };
        assert_eq!(cause == Cause::Unknown, length == 0, "{number}");
        if cause != Cause::Unknown {
            assert_eq!(cause.number(), number);
            assert_eq!(cause.to_string().as_bytes(), &out[..length]);
            assert_eq!(cause.to_string(), word_of_name(cause));
        }
    }
    assert_eq!(Cause::of_number(30), Cause::Unknown);
    assert_eq!(Cause::Unknown.to_string(), "");
    assert_eq!(Refused { cause: Cause::BadLink, at: 40 }.to_string(), "bad-link at 0x28");
    assert_eq!(elfsee::version() >> 16, 0);
}
