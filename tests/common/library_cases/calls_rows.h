/* All rows of a file, a line for each, with numbers for names of numbers: for calls.c. */

struct walk {
    const struct lent *file;
    struct lent room;
    struct elfsee_limits limits;
    struct elfsee_range names; /* of sections */
    struct elfsee_end end;
    char *text;
    size_t len, size;
};

static void say(struct walk *walk, const char *form, ...) {
    va_list words;
    if (walk->size - walk->len < 1024) {
        walk->size = walk->size * 2 + 65536;
        walk->text = (char *)realloc(walk->text, walk->size);
        if (!walk->text) abort();
    }
    va_start(words, form);
    walk->len += (size_t)vsnprintf(walk->text + walk->len, walk->size - walk->len, form, words);
    va_end(words);
}

/* The bytes of a name, escaped as in a listing. */
static void say_bytes(struct walk *walk, uint64_t at, uint64_t len) {
    uint64_t i, shown = len < walk->limits.name ? len : walk->limits.name;
    for (i = 0; i < shown; i += 1) {
        uint8_t byte = walk->file->bytes[at + i];
        say(walk, byte == '\\' ? "\\\\" : byte < 0x20 || byte > 0x7e ? "\\x%02x" : "%c", byte);
    }
    if (shown < len) say(walk, "\\+");
}

/* The name at an offset of a string table: whether there is one. */
static int say_name(struct walk *walk, const struct elfsee_range *strings, uint64_t offset) {
    struct elfsee_range name = {7, 7};
    if (elfsee_name(walk->file->bytes, walk->file->len, strings, offset, &name, &walk->end)) return 0;
    if (strings->len == 0) return name.at == 0 && name.len == 0;
    expect(name.at == strings->at + offset && offset + name.len < strings->len, "a name outside its table");
    expect(name.at + name.len < walk->file->len && walk->file->bytes[name.at + name.len] == 0,
           "a name without its NUL");
    say_bytes(walk, name.at, name.len);
    return 1;
}

/* The rows that were opened, stepped over once more within a budget: each row counts, `size` bytes of the file; with
 * a budget for one row less, the last is what it ends before. `kind` is what they are. */
enum kind { OF_SYMBOLS, OF_RELOCATIONS, OF_DYNAMIC, OF_WORDS };

static size_t step_within(struct walk *walk, enum kind kind, const struct elfsee_limits *limits, uint64_t *asked,
                          struct elfsee_rows *rows, struct elfsee_end *end) {
    const struct lent *file = walk->file;
    struct elfsee_symbol symbols[9];
    struct elfsee_relocation relocations[9];
    struct elfsee_dynamic entries[9];
    struct elfsee_version_word words[9];
    if (kind == OF_WORDS)
        return elfsee_next_version_words_within(file->bytes, file->len, limits, asked, rows, words, 9, end);
    if (kind == OF_SYMBOLS)
        return elfsee_next_symbols_within(file->bytes, file->len, limits, asked, rows, symbols, 9, end);
    if (kind == OF_RELOCATIONS)
        return elfsee_next_relocations_within(file->bytes, file->len, limits, asked, rows, relocations, 9, end);
    return elfsee_next_dynamic_within(file->bytes, file->len, limits, asked, rows, entries, 9, end);
}

static void try_within(struct walk *walk, enum kind kind, const struct elfsee_rows *opened) {
    uint64_t size = kind == OF_DYNAMIC ? 16 : kind == OF_WORDS ? 2 : 24, less;
    for (less = 0; less < 2; less += 1) {
        struct elfsee_limits limits = {1, 1, 1, 0};
        struct elfsee_rows rows = *opened;
        struct elfsee_end end = {7, 7, 7, 7, 7};
        uint64_t asked = 0, total = 0;
        size_t count = 9;
        if (less > opened->count) return;
        limits.budget = size * opened->count - less;
        while (count == 9) total += count = step_within(walk, kind, &limits, &asked, &rows, &end);
        expect(total == opened->count - less && asked == size * total && rows.index == total, "rows within a budget");
        expect(end.cause == (less ? ELFSEE_BUDGET : 0) && end.at == (less ? opened->at + size * total : 0) &&
                   end.written == 0 && end.asked == 0 && end.none == 0, "the end of rows within a budget");
    }
}

/* Dynamic entries that were opened, opened once more within a budget. */
static uint32_t open_within(struct walk *walk, const struct elfsee_limits *limits, int is_segment, uint16_t header,
                            uint64_t *asked, struct elfsee_rows *rows, struct elfsee_end *end) {
    const struct lent *file = walk->file;
    if (is_segment) return elfsee_segment_dynamic_within(file->bytes, file->len, limits, header, asked, rows, end);
    return elfsee_dynamic_within(file->bytes, file->len, limits, header, walk->room.bytes, walk->room.len, asked, rows,
                                 end);
}

static void try_opening(struct walk *walk, int is_segment, uint16_t header, const struct elfsee_rows *opened) {
    uint64_t less;
    for (less = 0; less < 2 && less <= opened->count; less += 1) {
        struct elfsee_limits limits = walk->limits;
        struct elfsee_rows rows = {7, 7, 7, 7, 7, 7}, old = rows;
        struct elfsee_end end = {7, 7, 7, 7, 7};
        uint64_t asked = 5, looked = opened->count - less;
        uint32_t status;
        limits.has_budget = 1;
        limits.budget = 5 + 16 * opened->count - less;
        status = open_within(walk, &limits, is_segment, header, &asked, &rows, &end);
        expect(status == (less ? ELFSEE_REFUSED : ELFSEE_OK), "an opening within a budget");
        expect(!memcmp(&rows, less ? &old : opened, sizeof rows) && asked == 5 + 16 * looked, "what it opens and counts");
        expect(end.cause == (less ? ELFSEE_BUDGET : 0) && end.at == (less ? opened->at + 16 * looked : 0), "its end");
    }
}

/* The symbols of a section, and whether all could be named. */
static int say_symbols(struct walk *walk, uint16_t section) {
    struct elfsee_rows rows = {7, 7, 7, 7, 7, 7};
    struct elfsee_symbol some[100];
    uint32_t status = elfsee_symbols(walk->file->bytes, walk->file->len, &walk->limits, section,
                                     walk->room.bytes, walk->room.len, &rows, &walk->end);
    size_t i, count;
    if (status != ELFSEE_OK) return status == ELFSEE_ABSENT;
    try_within(walk, OF_SYMBOLS, &rows);
    for (;;) {
        uint64_t index = rows.index;
        count = elfsee_next_symbols(walk->file->bytes, walk->file->len, &rows, some, 100);
        expect(count <= 100 && rows.index == index + count, "a wrong number of symbols");
        for (i = 0; i < count; i += 1) {
            struct elfsee_range strings = {rows.strings_at, rows.strings_len};
            say(walk, "Y %u %" PRIu64 " %" PRIu64 " %" PRIu64 " %u %u %u %u ", section, index + i,
                some[i].value, some[i].size, some[i].info & 15, some[i].info >> 4, some[i].other & 3,
                some[i].section);
            if (!say_name(walk, &strings, some[i].name)) return 0;
            say(walk, "\n");
        }
        if (count < 100) return 1;
    }
}

static int say_relocations(struct walk *walk, uint16_t section) {
    struct elfsee_rows rows = {7, 7, 7, 7, 7, 7};
    struct elfsee_section header;
    struct elfsee_relocation some[7];
    uint32_t status = elfsee_relocations(walk->file->bytes, walk->file->len, &walk->limits, section,
                                         walk->room.bytes, walk->room.len, &rows, &walk->end);
    size_t i, count = 7;
    memset(&header, 7, sizeof header);
    if (status != ELFSEE_OK) return status == ELFSEE_ABSENT;
    try_within(walk, OF_RELOCATIONS, &rows);
    status = elfsee_section(walk->file->bytes, walk->file->len, section, &header, &walk->end);
    /* A table of entries without addends is no part of a listing. */
    if (status || header.type == 9) return status == ELFSEE_OK;
    while (count == 7) {
        count = elfsee_next_relocations(walk->file->bytes, walk->file->len, &rows, some, 7);
        for (i = 0; i < count; i += 1) {
            say(walk, "R %u %" PRIu64 " %" PRIu64 " %" PRIu64 " %" PRIi64 "\n", section, some[i].offset,
                some[i].info & 0xffffffff, some[i].info >> 32, some[i].addend);
        }
    }
    return 1;
}

static int is_string(int64_t tag) {
    return tag == 1 || tag == 14 || tag == 15 || tag == 29;
}

static int say_dynamic(struct walk *walk, uint16_t section) {
    struct elfsee_rows rows = {7, 7, 7, 7, 7, 7};
    struct elfsee_dynamic entry;
    uint32_t status = elfsee_dynamic(walk->file->bytes, walk->file->len, &walk->limits, section,
                                     walk->room.bytes, walk->room.len, &rows, &walk->end);
    uint64_t index = 0;
    if (status != ELFSEE_OK) return status == ELFSEE_ABSENT;
    try_within(walk, OF_DYNAMIC, &rows);
    try_opening(walk, 0, section, &rows);
    for (; elfsee_next_dynamic(walk->file->bytes, walk->file->len, &rows, &entry, 1); index += 1) {
        struct elfsee_range strings = {rows.strings_at, rows.strings_len};
        say(walk, "D %" PRIu64 " %" PRIi64 " %" PRIu64 " ", index, entry.tag, entry.value);
        if (is_string(entry.tag) && !say_name(walk, &strings, entry.value)) return 0;
        say(walk, "\n");
    }
    return 1;
}

/* Where the strings of a segment's dynamic entries are in memory: the values of the first entry of the tag
 * STRTAB, and of that of the tag STRSZ. Whether both are there. */
static int strings_told(const struct walk *walk, struct elfsee_rows rows, uint64_t *address, uint64_t *size) {
    struct elfsee_dynamic some[5];
    size_t i, count = 5;
    int has_address = 0, has_size = 0;
    while (count == 5) {
        count = elfsee_next_dynamic(walk->file->bytes, walk->file->len, &rows, some, 5);
        for (i = 0; i < count; i += 1) {
            if (some[i].tag == 5 && !has_address) *address = some[i].value, has_address = 1;
            if (some[i].tag == 10 && !has_size) *size = some[i].value, has_size = 1;
        }
    }
    return has_address && has_size;
}

static int say_segment_dynamic(struct walk *walk, uint16_t segment) {
    const struct lent *file = walk->file;
    struct elfsee_rows rows = {7, 7, 7, 7, 7, 7};
    struct elfsee_dynamic entry;
    uint32_t status = elfsee_segment_dynamic(file->bytes, file->len, segment, &rows, &walk->end);
    uint64_t index = 0, address = 0, size = 0;
    if (status != ELFSEE_OK) return status == ELFSEE_ABSENT;
    expect(rows.strings_at == 0 && rows.strings_len == 0, "strings of a segment's entries");
    try_within(walk, OF_DYNAMIC, &rows);
    try_opening(walk, 1, segment, &rows);
    int told = strings_told(walk, rows, &address, &size);
    for (; elfsee_next_dynamic(file->bytes, file->len, &rows, &entry, 1); index += 1) {
        say(walk, "D %" PRIu64 " %" PRIi64 " %" PRIu64 " ", index, entry.tag, entry.value);
        if (is_string(entry.tag)) {
            struct elfsee_range strings = {7, 7};
            if (!told || elfsee_mapped(file->bytes, file->len, address, size, &strings, &walk->end)) return 0;
            expect(strings.len == size && strings.at <= file->len && size <= file->len - strings.at,
                   "mapped bytes outside the file");
            if (!say_name(walk, &strings, entry.value)) return 0;
        }
        say(walk, "\n");
    }
    return 1;
}

/* The notes of a header that was opened: each with its name up to the first NUL, and the first bytes of its
 * descriptor. */
static int say_notes(struct walk *walk, uint32_t status, struct elfsee_notes *notes) {
    struct elfsee_note note;
    memset(&note, 7, sizeof note);
    if (status != ELFSEE_OK) return status == ELFSEE_ABSENT;
    for (;;) {
        const uint8_t *bytes = walk->file->bytes;
        struct elfsee_notes before = *notes;
        uint64_t i, len;
        status = elfsee_next_note(bytes, walk->file->len, notes, &note, &walk->end);
        if (status != ELFSEE_OK) {
            expect(!memcmp(&before, notes, sizeof before), "a step without a note");
            return status == ELFSEE_ABSENT;
        }
        expect(notes->at >= before.at + 12 && notes->at + notes->left == before.at + before.left,
               "a step over a note");
        expect(note.at == before.at && note.header == before.header, "a note of another place");
        expect(note.name_at + note.namesz <= note.desc_at && note.desc_at + note.descsz <= notes->at &&
                   notes->at <= walk->file->len,
               "a note outside its table");
        say(walk, "N %u %u %u %u ", note.header, note.type, note.namesz, note.descsz);
        for (len = 0; len < note.namesz && bytes[note.name_at + len]; len += 1) {
        }
        say_bytes(walk, note.name_at, len);
        say(walk, " ");
        for (i = 0; i < note.descsz && i < 32; i += 1) say(walk, "%02x", bytes[note.desc_at + i]);
        say(walk, note.descsz > 32 ? "\\+\n" : "\n");
    }
}

static int say_section_notes(struct walk *walk, uint16_t section) {
    struct elfsee_notes notes = {7, 7, 7, 7, 7};
    uint32_t status = elfsee_notes(walk->file->bytes, walk->file->len, section, &notes, &walk->end);
    return say_notes(walk, status, &notes);
}

static int say_segment_notes(struct walk *walk, uint16_t segment) {
    struct elfsee_notes notes = {7, 7, 7, 7, 7};
    uint32_t status = elfsee_segment_notes(walk->file->bytes, walk->file->len, segment, &notes, &walk->end);
    return say_notes(walk, status, &notes);
}

/* The names that numbers of versions have, each in a string table of its own. */
struct version_names {
    struct elfsee_range strings[1024];
    uint32_t names[1024];
    int has_name[1024], is_read[4]; /* the definitions, and the needs, of the first section of them */
};

static struct version_names versions_named;

/* The records of a section of definitions, or of needs. */
static int say_records(struct walk *walk, uint16_t section, uint32_t first) {
    static const char *const KINDS[] = {"?", "DEF ", "FILE", "NEED"};
    struct version_names *named = &versions_named;
    struct elfsee_version_records records, before;
    struct elfsee_version_record row;
    struct elfsee_section header;
    memset(&records, 7, sizeof records);
    memset(&header, 7, sizeof header);
    if (elfsee_section(walk->file->bytes, walk->file->len, section, &header, &walk->end)) return 0;
    if (header.type != (first == ELFSEE_DEFINITION ? 0x6ffffffd : 0x6ffffffe)) return 1;
    uint32_t status = elfsee_version_records(walk->file->bytes, walk->file->len, &walk->limits, section,
                                             walk->room.bytes, walk->room.len, &records, &walk->end);
    if (status != ELFSEE_OK) {
        expect(status == ELFSEE_REFUSED, "a section without records");
        return 0;
    }
    expect(records.none == 0 && walk->end.asked == 0 && records.kind == (records.size ? first : 0),
           "an opening of records");
    for (;;) {
        struct elfsee_range strings = {records.strings_at, records.strings_len};
        before = records;
        memset(&row, 7, sizeof row);
        status = elfsee_next_version_record(walk->file->bytes, walk->file->len, &records, &row, &walk->end);
        if (status != ELFSEE_OK) break;
        expect(records.left + 1 == before.left && row.at == before.at + before.place && row.kind == before.kind,
               "a record of another place");
        expect(row.at + 16 <= walk->file->len && row.named_at + 4 <= walk->file->len, "a record outside the file");
        say(walk, "V %5u %s %5u %04x %08x ", section, KINDS[row.kind], row.number, row.flags, row.hash);
        if (!say_name(walk, &strings, row.name)) return 0;
        say(walk, "\n");
        uint32_t number = row.number & 32767;
        expect(number < 1024, "a number of a version");
        int names = row.kind == ELFSEE_NEED || (row.kind == ELFSEE_DEFINITION && !(row.flags & 1));
        if (!named->is_read[first] && names && !named->has_name[number]) {
            named->has_name[number] = 1;
            named->strings[number] = strings;
            named->names[number] = row.name;
        }
    }
    expect(!memcmp(&before, &records, sizeof before), "a step without a record");
    named->is_read[first] = 1;
    return status == ELFSEE_ABSENT;
}

static int say_definitions(struct walk *walk, uint16_t section) {
    return say_records(walk, section, ELFSEE_DEFINITION);
}

static int say_needs(struct walk *walk, uint16_t section) {
    return say_records(walk, section, ELFSEE_FILE);
}

/* The versions of symbols of a section. */
static int say_words(struct walk *walk, uint16_t section) {
    struct elfsee_rows rows = {7, 7, 7, 7, 7, 7};
    struct elfsee_version_word some[7];
    size_t i, count = 7;
    uint64_t index = 0;
    uint32_t status = elfsee_version_words(walk->file->bytes, walk->file->len, &walk->limits, section,
                                           walk->room.bytes, walk->room.len, &rows, &walk->end);
    if (status != ELFSEE_OK) return status == ELFSEE_ABSENT;
    expect(rows.entry == 2 && rows.index == 0 && rows.strings_at == 0 && rows.strings_len == 0, "an opening of words");
    try_within(walk, OF_WORDS, &rows);
    while (count == 7) {
        count = elfsee_next_version_words(walk->file->bytes, walk->file->len, &rows, some, 7);
        for (i = 0; i < count; i += 1, index += 1) {
            uint16_t number = some[i].number;
            expect(number < 32768 && some[i].is_hidden <= 1, "a word out of its range");
            if (number >= 1024 || (number > 1 && !versions_named.has_name[number])) return 0;
            say(walk, "X %5u %10" PRIu64 " %5u %s ", section, index, number, some[i].is_hidden ? "H" : "-");
            if (number > 1 && !say_name(walk, &versions_named.strings[number], versions_named.names[number])) return 0;
            say(walk, "\n");
        }
    }
    return 1;
}

/* The bytes of a section are those that its header gives, where they lie in the file and it has any there. */
static void expect_bytes(const struct walk *walk, uint16_t index, const struct elfsee_section *header,
                         uint64_t place) {
    struct elfsee_range range = {7, 7};
    struct elfsee_end end = {7, 7, 7, 7, 7};
    uint64_t len = walk->file->len;
    uint32_t status = elfsee_section_bytes(walk->file->bytes, walk->file->len, index, &range, &end);
    int has_none = header->type == 8 || header->type == 0;
    int outside = header->size > len || header->offset > len - header->size;
    expect(status == (has_none ? ELFSEE_ABSENT : outside ? ELFSEE_REFUSED : ELFSEE_OK), "the bytes of a section");
    expect(status == ELFSEE_OK ? range.at == header->offset && range.len == header->size
                               : range.at == 7 && range.len == 7,
           "other bytes of a section");
    expect(status != ELFSEE_REFUSED || (end.cause == ELFSEE_TABLE_OUTSIDE && end.at == place),
           "the refusal of a section's bytes");
    expect(end.asked == 0 && end.written == 0 && end.none == 0 && (status == ELFSEE_REFUSED || end.cause == 0),
           "the end of a section's bytes");
}

static int say_section(struct walk *walk, uint16_t index) {
    struct elfsee_section header;
    struct elfsee_header file;
    memset(&header, 7, sizeof header);
    memset(&file, 7, sizeof file);
    if (elfsee_section(walk->file->bytes, walk->file->len, index, &header, &walk->end)) return 0;
    if (elfsee_header(walk->file->bytes, walk->file->len, &file, &walk->end)) return 0;
    expect_bytes(walk, index, &header, file.shoff + 64 * (uint64_t)index);
    say(walk,
        "S %u %" PRIu32 " %" PRIu64 " %" PRIu64 " %" PRIu64 " %" PRIu64 " %" PRIu32 " %" PRIu32 " %" PRIu64
        " %" PRIu64 " ",
        index, header.type, header.flags, header.addr, header.offset, header.size, header.link, header.info,
        header.addralign, header.entsize);
    if (walk->names.len && !say_name(walk, &walk->names, header.name)) return 0;
    say(walk, "\n");
    return 1;
}

static int say_segment(struct walk *walk, uint16_t index) {
    struct elfsee_segment header;
    memset(&header, 7, sizeof header);
    if (elfsee_segment(walk->file->bytes, walk->file->len, index, &header, &walk->end)) return 0;
    say(walk,
        "P %u %" PRIu32 " %" PRIu32 " %" PRIu64 " %" PRIu64 " %" PRIu64 " %" PRIu64 " %" PRIu64 " %" PRIu64
        "\n",
        index, header.type, header.flags, header.offset, header.vaddr, header.paddr, header.filesz,
        header.memsz, header.align);
    return 1;
}

static int say_each(struct walk *walk, uint16_t count, int (*say_one)(struct walk *, uint16_t)) {
    uint16_t index;
    for (index = 0; index < count; index += 1) {
        if (!say_one(walk, index)) return 0;
    }
    return 1;
}

/* Whether all rows of a file could be read. */
static int say_all(struct walk *walk) {
    struct elfsee_header header;
    struct elfsee_section section;
    struct elfsee_segment segment;
    const uint8_t *bytes = walk->file->bytes;
    size_t len = walk->file->len;
    memset(&header, 7, sizeof header);
    if (elfsee_header(bytes, len, &header, &walk->end)) return 0;
    expect(!memcmp(header.ident, bytes, 16), "another identification");
    say(walk, "H %u %u %" PRIu64 " %" PRIu64 " %" PRIu64 " %" PRIu32 " %u %u %u %" PRIu32 " %u %u %u\n",
        header.type, header.machine, header.entry, header.phoff, header.shoff, header.flags, header.phnum,
        header.shnum, header.shstrndx, header.version, header.ehsize, header.phentsize, header.shentsize);
    expect(elfsee_section(bytes, len, header.shnum, &section, &walk->end) != ELFSEE_OK, "a section too many");
    expect(elfsee_segment(bytes, len, header.phnum, &segment, &walk->end) != ELFSEE_OK, "a segment too many");
    struct elfsee_range range = {7, 7};
    expect(elfsee_section_bytes(bytes, len, header.shnum, &range, &walk->end) != ELFSEE_OK && range.len == 7,
           "the bytes of a section too many");
    uint32_t status = elfsee_section_names(bytes, len, &walk->limits, walk->room.bytes, walk->room.len,
                                           &walk->names, &walk->end);
    if (status != ELFSEE_OK) memset(&walk->names, 0, sizeof walk->names);
    if (status != ELFSEE_OK && status != ELFSEE_ABSENT) return 0;
    return say_each(walk, header.shnum, say_section) && say_each(walk, header.phnum, say_segment) &&
           say_each(walk, header.shnum, say_symbols) && say_each(walk, header.shnum, say_relocations) &&
           (header.shnum ? say_each(walk, header.shnum, say_section_notes)
                         : say_each(walk, header.phnum, say_segment_notes)) &&
           (header.shnum ? say_each(walk, header.shnum, say_dynamic)
                         : say_each(walk, header.phnum, say_segment_dynamic));
}

static void rows(const struct lent *file) {
    struct walk walk;
    memset(&walk, 0, sizeof walk);
    walk.file = file;
    walk.limits.headers = 65279;
    walk.limits.name = 256;
    walk.room = lend((size_t)elfsee_room(file->bytes, file->len, 65279), turn++ & 2);
    int all = say_all(&walk);
    answer(all ? ELFSEE_OK : ELFSEE_REFUSED, &walk.end, UINT64_MAX, walk.text, walk.len);
    free(walk.text);
    expect(take_back(&walk.room), "room was written outside");
}

/* The symbols of the hash table: of each its numbers and its name, or ! if it has none. */
static void hashed(const struct lent *file, char **words) {
    struct elfsee_limits limits = limits_of(words[0], "256", words[1]);
    struct elfsee_rows rows = {7, 7, 7, 7, 7, 7}, again = {8, 8, 8, 8, 8, 8};
    struct elfsee_end end_again = {7, 7, 7, 7, 7};
    struct elfsee_symbol symbols[7];
    struct walk walk;
    uint32_t flags = (uint32_t)atoi(words[2]), status;
    size_t count = 7, i;
    memset(&walk, 0, sizeof walk);
    walk.file = file;
    walk.limits = limits;
    walk.room = lend(HEADER_BYTES * (size_t)limits.headers, turn++ & 2);
    struct lent less = lend((size_t)elfsee_room(file->bytes, file->len, limits.headers), turn & 1);
    status = elfsee_hashed_symbols(file->bytes, file->len, &limits, flags, walk.room.bytes, walk.room.len, &rows,
                                   &walk.end);
    expect(status == elfsee_hashed_symbols(file->bytes, file->len, &limits, flags, less.bytes, less.len, &again,
                                           &end_again) &&
               is_same(&walk.end, &end_again),
           "another answer with other room");
    expect(take_back(&walk.room) && take_back(&less), "room was written outside");
    expect(walk.end.written == 0, "written is not 0");
    if (status != ELFSEE_OK) expect(rows.at == 7 && rows.strings_len == 7, "rows were written where none are");
    if (status == ELFSEE_OK) expect(!memcmp(&rows, &again, sizeof rows) && rows.index == 0, "other rows with other room");
    struct elfsee_range strings = {rows.strings_at, rows.strings_len};
    struct elfsee_end end = walk.end;
    while (status == ELFSEE_OK && count == 7) {
        count = elfsee_next_symbols(file->bytes, file->len, &rows, symbols, 7);
        for (i = 0; i < count; i += 1) {
            say(&walk, "%" PRIu64 " %" PRIu64 " %u %u %u %" PRIu32 " ", symbols[i].value, symbols[i].size,
                symbols[i].info, symbols[i].other, symbols[i].section, symbols[i].name);
            if (!say_name(&walk, &strings, symbols[i].name)) say(&walk, "!");
            say(&walk, "\n");
        }
    }
    if (status == ELFSEE_OK) expect(rows.index == rows.count, "fewer rows than were counted");
    answer(status, &end, UINT64_MAX, walk.text, walk.len);
    free(walk.text);
}

/* The lines of symbol versions, as the program lists them with 4,096 bytes of a name. */
static void versions(const struct lent *file) {
    struct walk walk;
    struct elfsee_header header;
    memset(&walk, 0, sizeof walk);
    memset(&header, 0, sizeof header);
    memset(&versions_named, 0, sizeof versions_named);
    walk.file = file;
    walk.limits.headers = 65279;
    walk.limits.name = 4096;
    walk.room = lend((size_t)elfsee_room(file->bytes, file->len, 65279), turn++ & 2);
    int all = !elfsee_header(file->bytes, file->len, &header, &walk.end) &&
              say_each(&walk, header.shnum, say_definitions) && say_each(&walk, header.shnum, say_needs) &&
              say_each(&walk, header.shnum, say_words);
    answer(all ? ELFSEE_OK : ELFSEE_REFUSED, &walk.end, UINT64_MAX, walk.text, walk.len);
    free(walk.text);
    expect(take_back(&walk.room), "room was written outside");
}

/* The members of an archive, a line for each as the program lists them with 4,096 bytes of a name. */
static void members(const struct lent *file) {
    struct walk walk;
    struct elfsee_members place = {7, {7, 7}, 7, 7}, before;
    struct elfsee_member member;
    uint64_t index = 0;
    memset(&walk, 0, sizeof walk);
    memset(&member, 7, sizeof member);
    walk.file = file;
    walk.limits.name = 4096;
    uint32_t status = elfsee_members(file->bytes, file->len, &place, &walk.end);
    before = place;
    if (status == ELFSEE_OK) {
        expect(place.at == 8 && place.has_names == 0 && place.none == 0, "another first place");
        status = elfsee_next_member(file->bytes, file->len, &place, &member, &walk.end);
    }
    for (; status == ELFSEE_OK; index += 1) {
        uint64_t front = name_in_data(file->bytes, file->len, member.at), size = front + member.content.len;
        expect(member.at == before.at && member.content.at == before.at + 60 + front, "a member of another place");
        expect(place.at == before.at + 60 + size + size % 2, "a step over a member");
        expect(member.content.at + member.content.len <= file->len && member.name.len <= 4096 &&
                   member.name.at + member.name.len <= file->len && member.is_cut <= 1 && member.none == 0,
               "a member outside the file");
        say(&walk, "A %5" PRIu64 " %016" PRIx64 " %016" PRIx64 " ", index, member.content.at, member.content.len);
        say_bytes(&walk, member.name.at, member.name.len);
        say(&walk, member.is_cut ? "\\+\n" : "\n");
        before = place;
        status = elfsee_next_member(file->bytes, file->len, &place, &member, &walk.end);
    }
    if (before.at >= 8) expect(!memcmp(&before, &place, sizeof before), "a step without a member");
    expect(walk.end.asked == 0 && walk.end.written == 0, "bytes that were asked for");
    answer(status == ELFSEE_ABSENT ? ELFSEE_OK : status, &walk.end, UINT64_MAX, walk.text, walk.len);
    free(walk.text);
}
