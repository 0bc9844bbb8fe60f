/* Cases of bounds.c: limits, names, rooms and outputs. */

static void bad_limits(void) {
    static const unsigned headers[] = {0, 65280, 65535}, names[] = {0, 4097, 65535};
    struct elfsee_end end;
    struct elfsee_found found;
    struct elfsee_resolved resolved;
    struct elfsee_rows rows;
    struct elfsee_range range;
    struct elfsee_missing missing;
    struct elfsee_version_records records = {7, 7, 7, 7, 7, 7, 7, 7, 7, 7};
    struct elfsee_limits good = limits_of(4096, 256);
    int shows = 1, finds = 1, applies = 1, opens = 1, unlooked = 1, costs = 1;
    unsigned i, table;
    for (i = 0; i < 3; i += 1) {
        struct elfsee_limits bad = limits_of(headers[i], 256), other = limits_of(4096, names[i]);
        shows &= is_bad(show(bad, ROOM, OUT, &end), &end) && is_bad(show(other, ROOM, OUT, &end), &end);
        finds &= is_bad(find(bad, ROOM, "call", 4, &found, &end), &end);
        finds &= is_bad(look_up(bad, ROOM, i, "call", 4, "", 0, &resolved, &end), &end);
        finds &= is_zero(&resolved, sizeof resolved);
        shows &= is_bad(list_names(bad, ROOM, SYMBOLS_ALONE, 0, 0, OUT, &end), &end);
        shows &= is_bad(list_names(other, ROOM, SYMBOLS_ALONE, 0, 0, OUT, &end), &end);
        opens &= is_bad(elfsee_hashed_symbols(library.bytes, library.len, &bad, 0, room.bytes, ROOM, &rows, &end), &end);
        opens &= is_bad(elfsee_hashed_symbols(library.bytes, library.len, &good, i + 2, room.bytes, ROOM, &rows, &end),
                        &end);
        unlooked &= find(other, ROOM, "call", 4, &found, &end) == ELFSEE_OK;
        unlooked &= look_up(other, ROOM, i, "call", 4, "", 0, &resolved, &end) == ELFSEE_OK;
        paint();
        applies &= is_bad(apply(bad, ROOM, 1, 0, 0, OUT, &end), &end);
        applies &= is_bad(place(bad, ROOM, 1, &NO_LAYOUT, OUT, &missing, &end), &end);
        applies &= is_zero(&missing, sizeof missing);
        opens &= is_bad(elfsee_version_records(object.bytes, object.len, &bad, 1, room.bytes, ROOM, &records, &end),
                        &end) && records.at == 7 && records.none == 7;
        for (table = 0; table < TABLE_COUNT; table += 1) {
            uint32_t status =
                TABLES[table].call(object.bytes, object.len, &bad, 1, room.bytes, ROOM, &rows, &end);
            opens &= is_bad(status, &end);
        }
        opens &= is_bad(elfsee_section_names(object.bytes, object.len, &bad, room.bytes, ROOM, &range, &end),
                        &end);
        costs &= elfsee_cost(1000, &bad) == UINT64_MAX && elfsee_cost(1000, &other) == UINT64_MAX;
    }
    check(shows, "a listing with limits outside their ranges");
    check(finds, "a lookup with limits outside their ranges");
    check(applies, "a section with limits outside their ranges");
    check(opens, "tables with limits outside their ranges");
    check(unlooked, "a lookup does not look at the bytes of a name that a listing shows");
    check(costs, "a cost with limits outside their ranges");
}

/* What a name may not be, and where names may not be. */
static void bad_names(void) {
#define TEXT(text) {(const uint8_t *)(text), sizeof(text) - 1}
    static const struct elfsee_text bad[][2] = {{TEXT(""), TEXT("a")}, {TEXT("b"), TEXT("a")}, {TEXT("ab"), TEXT("a")},
                                                {TEXT("a"), TEXT("b\0")}, {TEXT("\xff"), TEXT("a")}};
    static const struct elfsee_text unversioned[] = {TEXT("@V"), TEXT("a@"), TEXT("a@@"), TEXT("@"), TEXT("@@")};
    static const struct elfsee_text good[] = {TEXT("call"), TEXT("call"), TEXT("call@@V@"), TEXT("call@V")};
#undef TEXT
    static const struct elfsee_listing parts[] = {{0, 0}, {ELFSEE_ALL, 0}, {24, 4}, {ELFSEE_NOTES, 0}, {ELFSEE_VERSIONS, 0}};
    static uint8_t long_name[4097];
    struct elfsee_limits limits = limits_of(4096, 256);
    struct elfsee_listing symbols = {ELFSEE_SYMBOLS, 0}, versioned = {ELFSEE_SYMBOLS, ELFSEE_GNU + ELFSEE_NAME_VERSIONS};
    struct elfsee_text one = {long_name, 4096};
    struct elfsee_end end;
    int all = 1, sorts = 1;
    unsigned i;
    memset(long_name, 'n', sizeof long_name);
    for (i = 0; i < sizeof bad / sizeof *bad; i += 1) {
        all &= is_bad(list_names(limits, ROOM, symbols, bad[i], 2, OUT, &end), &end);
    }
    for (i = 0; i < sizeof unversioned / sizeof *unversioned; i += 1) {
        sorts &= list_names(limits, ROOM, symbols, &unversioned[i], 1, OUT, &end) == ELFSEE_OK;
        paint();
        all &= is_bad(list_names(limits, ROOM, versioned, &unversioned[i], 1, OUT, &end), &end);
    }
    sorts &= list_names(limits, ROOM, versioned, good, 4, OUT, &end) == ELFSEE_OK;
    sorts &= list_names(limits, ROOM, symbols, &one, 1, OUT, &end) == ELFSEE_OK && end.written == 0;
    sorts &= list_names(limits, ROOM, symbols, good, 0, OUT, &end) == ELFSEE_OK && end.written == 0;
    sorts &= list_names(limits, ROOM, symbols, good, 1, OUT, &end) == ELFSEE_OK && end.written > 0;
    paint();
    one.len = 4097;
    all &= is_bad(list_names(limits, ROOM, symbols, &one, 1, OUT, &end), &end);
    for (i = 0; i < sizeof parts / sizeof *parts; i += 1) {
        all &= is_bad(list_names(limits, ROOM, parts[i], good, 1, OUT, &end), &end);
    }
    versioned.flags = ELFSEE_NAME_VERSIONS;
    all &= is_bad(list_names(limits, ROOM, versioned, good, 1, OUT, &end), &end);
    check(all, "names that cannot be looked for, and other parts");
    check(sorts, "names that can be looked for, and none");
}

static void small_room(void) {
    struct elfsee_end end;
    struct elfsee_found found;
    struct elfsee_resolved resolved;
    struct elfsee_rows rows;
    struct elfsee_range range;
    struct elfsee_limits limits = limits_of(4096, 256);
    struct elfsee_missing missing;
    struct elfsee_version_records records = {7, 7, 7, 7, 7, 7, 7, 7, 7, 7};
    int all = 1, refused = 1;
    size_t len;
    unsigned table;
    for (len = 0; len < 64; len += 1) {
        all &= is_bad(show(limits, len, OUT, &end), &end);
        all &= is_bad(find(limits, len, "call", 4, &found, &end), &end);
        all &= is_bad(look_up(limits, len, 0, "call", 4, "", 0, &resolved, &end), &end);
        all &= is_bad(list_names(limits, len, SYMBOLS_ALONE, 0, 0, OUT, &end), &end);
        all &= is_bad(elfsee_hashed_symbols(library.bytes, library.len, &limits, 0, room.bytes, len, &rows, &end), &end);
        all &= is_bad(apply(limits, len, 1, 0, 0, OUT, &end), &end);
        all &= is_bad(place(limits, len, 1, &NO_LAYOUT, OUT, &missing, &end), &end) && is_zero(&missing, sizeof missing);
        all &= is_bad(elfsee_version_records(object.bytes, object.len, &limits, 1, room.bytes, len, &records, &end),
                      &end) && records.at == 7;
        for (table = 0; table < TABLE_COUNT; table += 1) {
            uint32_t status =
                TABLES[table].call(object.bytes, object.len, &limits, 1, room.bytes, len, &rows, &end);
            all &= is_bad(status, &end);
        }
        all &= is_bad(elfsee_section_names(object.bytes, object.len, &limits, room.bytes, len, &range, &end),
                      &end);
    }
    check(all, "room of less than 64 bytes");
    for (len = 64; len < 64 * 4; len += 21) {
        refused &= find(limits, len, "call", 4, &found, &end) == ELFSEE_REFUSED &&
                   end.cause == ELFSEE_TOO_MANY_HEADERS && end.at == 0x3c;
        refused &= look_up(limits, len, 0, "call", 4, "", 0, &resolved, &end) == ELFSEE_REFUSED &&
                   end.cause == ELFSEE_TOO_MANY_HEADERS && end.at == 0x3c && is_zero(&resolved, sizeof resolved);
    }
    check(refused, "room for fewer headers than the file has");
    check(show(limits_of(4096, 256), 64, OUT, &end) == ELFSEE_REFUSED && end.cause == ELFSEE_TOO_MANY_HEADERS,
          "a listing with room for one header");
    paint();
}

static void short_files(void) {
    struct elfsee_limits limits = limits_of(4096, 256);
    struct elfsee_end end;
    struct elfsee_found found;
    struct elfsee_resolved resolved;
    struct elfsee_header header;
    struct elfsee_rows rows;
    struct elfsee_range range;
    struct elfsee_job job = {0, 0, 1, 0};
    struct elfsee_item none = {0, object.bytes, 0, 0, 0};
    struct elfsee_missing missing;
    struct elfsee_version_records records = {7, 7, 7, 7, 7, 7, 7, 7, 7, 7};
    int all = 1;
    size_t len;
    job.items = &none;
    memset(&header, 77, sizeof header);
    memset(&resolved, 77, sizeof resolved);
    memset(&range, 77, sizeof range);
    for (len = 0; len < 64; len += 1) {
        struct lent file = lend_copy(object.bytes, len, len & 1);
        uint32_t status =
            elfsee_show(file.bytes, len, &limits, ELFSEE_ALL, room.bytes, ROOM, out.bytes, OUT, &end);
        all &= status == ELFSEE_REFUSED && end.cause == ELFSEE_SHORT && end.at == len && end.written == 25;
        status = elfsee_find(file.bytes, len, &limits, room.bytes, ROOM, none.name, 0, &found, &end);
        all &= status == ELFSEE_REFUSED && end.cause == ELFSEE_SHORT && end.at == len;
        status = elfsee_look_up(file.bytes, len, &limits, len % 4, none.name, 0, none.name, 0, room.bytes, ROOM,
                                &resolved, &end);
        all &= status == ELFSEE_REFUSED && end.cause == ELFSEE_SHORT && end.at == len;
        status = elfsee_hashed_symbols(file.bytes, len, &limits, len % 2, room.bytes, ROOM, &rows, &end);
        all &= status == ELFSEE_REFUSED && end.cause == ELFSEE_SHORT && end.at == len && end.asked == 0;
        status = elfsee_section_bytes(file.bytes, len, 0, &range, &end);
        all &= status == ELFSEE_REFUSED && end.cause == ELFSEE_SHORT && end.at == len;
        status = elfsee_apply(file.bytes, len, &limits, &job, room.bytes, ROOM, out.bytes, 0, &end);
        all &= status == ELFSEE_REFUSED && end.cause == ELFSEE_SHORT && end.at == len;
        status = elfsee_apply_lent(file.bytes, len, &limits, 1, &NO_LAYOUT, room.bytes, ROOM, out.bytes, 0, &missing,
                                   &end);
        all &= status == ELFSEE_REFUSED && end.cause == ELFSEE_SHORT && end.at == len && is_zero(&missing, sizeof missing);
        status = elfsee_version_records(file.bytes, len, &limits, 1, room.bytes, ROOM, &records, &end);
        all &= status == ELFSEE_REFUSED && end.cause == ELFSEE_SHORT && end.at == len && records.at == 7;
        status = elfsee_header(file.bytes, len, &header, &end);
        all &= status == ELFSEE_REFUSED && end.cause == ELFSEE_SHORT && end.at == len;
        status = elfsee_symbols(file.bytes, len, &limits, 0, room.bytes, ROOM, &rows, &end);
        all &= status == ELFSEE_REFUSED && end.cause == ELFSEE_SHORT && end.at == len;
        status = elfsee_segment_dynamic(file.bytes, len, 0, &rows, &end);
        all &= status == ELFSEE_REFUSED && end.cause == ELFSEE_SHORT && end.at == len;
        status = elfsee_mapped(file.bytes, len, 0, 0, &range, &end);
        all &= status == ELFSEE_REFUSED && end.cause == ELFSEE_SHORT && end.at == len;
        all &= elfsee_room(file.bytes, len, 4096) == 64;
        take_back(&file);
    }
    check(all, "files of 0 to 63 bytes");
    paint();
}

/* ------------------------------------------------------------------------- */

static void small_out(void) {
    struct elfsee_limits limits = limits_of(4096, 256);
    struct elfsee_end end;
    struct elfsee_rows rows = {0, 1, 0, 24, 0, 0};
    int all = 1, at_end = 1;
    size_t len, whole;
    show(limits, ROOM, OUT, &end);
    whole = (size_t)end.written;
    paint();
    for (len = 0; len < whole; len += 1) {
        all &= show(limits, ROOM, len, &end) == ELFSEE_FULL && end.written == len;
        for (size_t at = len; at < len + 8; at += 1)
            at_end &= out.bytes[at] == MARK;
    }
    check(all, "a listing without room for all of it");
    check(at_end, "a listing is not written behind what is lent");
    paint();
    check(show(limits, ROOM, whole, &end) == ELFSEE_OK, "a listing with just its room");
    paint();
    check(elfsee_next_symbols(object.bytes, object.len, &rows, (struct elfsee_symbol *)(void *)out.bytes,
                              0) == 0 &&
              rows.index == 0 && is_untouched(),
          "no room for a symbol");
}

/* 30 and 31 are no causes. */
static int is_cause(uint32_t cause) {
    return (cause >= ELFSEE_SHORT && cause <= ELFSEE_UNMAPPED) ||
           (cause >= ELFSEE_VERSION_CUT && cause <= ELFSEE_TABLE_WRITTEN);
}

static void cause_words(void) {
    uint8_t word[40];
    int all = 1, none = 1;
    uint32_t cause;
    for (cause = 1; cause <= ELFSEE_TABLE_WRITTEN; cause += 1) {
        if (!is_cause(cause)) continue;
        size_t len = elfsee_cause_word(cause, word, sizeof word), less;
        all &= len > 0 && len <= 32;
        for (less = 0; less < len; less += 1) {
            struct lent small = lend(less, 0);
            memset(small.bytes, MARK, less);
            all &= elfsee_cause_word(cause, small.bytes, less) == 0;
            all &= less == 0 || small.bytes[less - 1] == MARK;
            all &= take_back(&small);
        }
        struct lent just = lend(len, 1);
        all &= elfsee_cause_word(cause, just.bytes, len) == len && !memcmp(just.bytes, word, len);
        take_back(&just);
    }
    check(all, "the words of causes, with room and without");
    for (cause = 0; cause < 100000; cause += 1)
        none &= is_cause(cause) || elfsee_cause_word(cause, word, sizeof word) == 0;
    check(none && !elfsee_cause_word(UINT32_MAX, word, sizeof word),
          "numbers that are no cause");
}

static void parts(void) {
    struct elfsee_limits limits = limits_of(4096, 256);
    struct elfsee_end end, other;
    unsigned part;
    int all = 1;
    for (part = 0; part < 128; part += 1) {
        uint32_t status = elfsee_show(object.bytes, object.len, &limits, (uint16_t)part, room.bytes, ROOM,
                                      out.bytes, OUT, &end);
        all &= status == elfsee_show(object.bytes, object.len, &limits, (uint16_t)(part | 0xff80), room.bytes,
                                     ROOM, out.bytes, OUT, &other);
        all &= status == ELFSEE_OK && end.written == other.written &&
               (end.written == 0) == (part == 0 || part == 4 || part == 32 || part == 64 || part == 36 ||
                                      part == 68 || part == 96 || part == 100);
    }
    check(all, "each set of parts, and bits without a meaning");
    paint();
}

static void names(void) {
    static char name[5000];
    struct elfsee_limits limits = limits_of(4096, 256);
    struct elfsee_end end;
    struct elfsee_found found;
    check(find(limits, ROOM, "call", 4, &found, &end) == ELFSEE_OK && found.steps > 0 && found.none == 0 &&
              found.none_behind == 0 && end.cause == 0 && end.at == 0 && end.written == 0,
          "a name that is there");
    check(find(limits, ROOM, "cal", 3, &found, &end) == ELFSEE_ABSENT &&
              is_zero(&found.symbol, sizeof found.symbol),
          "a front of a name");
    check(find(limits, ROOM, "calls", 5, &found, &end) == ELFSEE_ABSENT, "a name and one byte more");
    check(find(limits, ROOM, name, 0, &found, &end) != ELFSEE_BAD_CALL, "a name of no bytes");
    paint();
    memset(name, 'n', sizeof name);
    check(find(limits, ROOM, name, 4096, &found, &end) == ELFSEE_ABSENT, "a name of 4,096 bytes");
    paint();
    check(is_bad(find(limits, ROOM, name, 4097, &found, &end), &end), "a name of 4,097 bytes");
    check(find(limits, ROOM, "call\0", 5, &found, &end) != ELFSEE_OK, "a name with a NUL behind it");
    check(find(limits, ROOM, "ca\0l", 4, &found, &end) != ELFSEE_OK, "a name with a NUL in it");
    paint();
}

/* Names and versions of a loader's lookup, and its flags. */
static void loader_names(void) {
    static char name[5000];
    struct elfsee_limits limits = limits_of(4096, 256);
    struct elfsee_end end;
    struct elfsee_resolved found;
    unsigned flags;
    int all = 1, many = 1;
    memset(name, 'n', sizeof name);
    for (flags = 0; flags < 4; flags += 1) {
        all &= look_up(limits, ROOM, flags, "call", 4, "", 0, &found, &end) == ELFSEE_OK && found.tried > 0 &&
               found.none == 0 && found.none_behind == 0 && found.is_cut == 0 && end.cause == 0 && end.at == 0 &&
               end.written == 0;
        all &= look_up(limits, ROOM, flags, "cal", 3, "", 0, &found, &end) == ELFSEE_ABSENT &&
               is_zero(&found.symbol, sizeof found.symbol) && found.has_version == 0;
        all &= look_up(limits, ROOM, flags, name, 0, name, 4096, &found, &end) != ELFSEE_BAD_CALL;
        all &= look_up(limits, ROOM, flags, name, 4096, name, 4096, &found, &end) == ELFSEE_ABSENT;
        all &= look_up(limits, ROOM, flags, "call", 5, "", 0, &found, &end) != ELFSEE_OK;
        paint();
        all &= is_bad(look_up(limits, ROOM, flags, name, 4097, "", 0, &found, &end), &end);
        all &= is_bad(look_up(limits, ROOM, flags, "call", 4, name, 4097, &found, &end), &end);
    }
    check(all, "names and versions of a loader's lookup");
    for (flags = 4; flags; flags *= 2) {
        many &= is_bad(look_up(limits, ROOM, flags, "call", 4, "", 0, &found, &end), &end);
        many &= is_bad(look_up(limits, ROOM, flags + 3, "call", 4, "", 0, &found, &end), &end);
    }
    check(many, "flags that are not known");
}
