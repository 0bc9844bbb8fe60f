/* Cases of bounds.c: items of a layout, and borrowed layouts. */

/* Items. */

static struct elfsee_item items[ITEMS];
static uint8_t item_names[ITEMS][4];

/* A given number of items of one kind, all different, after others. */
static size_t add(size_t at, uint32_t kind, unsigned count) {
    unsigned i;
    for (i = 0; i < count; i += 1, at += 1) {
        struct elfsee_item item = {0x1000 * i, item_names[at], 0, kind, 0};
        item_names[at][0] = 'a';
        item_names[at][1] = (uint8_t)(1 + i);
        if (kind == ELFSEE_SECTION)
            item.index = i + 1;
        else
            item.name_len = 2;
        items[at] = item;
    }
    return at;
}

static int is_bad_items(size_t count) {
    struct elfsee_end end;
    return is_bad(apply(limits_of(4096, 0), ROOM, 1, items, count, OUT, &end), &end);
}

static int are_good_items(size_t count) {
    struct elfsee_end end;
    uint32_t status = apply(limits_of(4096, 0), ROOM, 1, items, count, OUT, &end);
    paint();
    return status == ELFSEE_OK || status == ELFSEE_REFUSED;
}

static void many_items(void) {
    check(are_good_items(0), "no items");
    check(are_good_items(add(0, ELFSEE_SECTION, 64)), "64 sections");
    check(is_bad_items(add(0, ELFSEE_SECTION, 65)), "65 sections");
    check(are_good_items(add(0, ELFSEE_DEFINE, 32)), "32 definitions");
    check(is_bad_items(add(0, ELFSEE_DEFINE, 33)), "33 definitions");
    check(are_good_items(add(0, ELFSEE_ENTRY, 32)), "32 entries");
    check(is_bad_items(add(0, ELFSEE_ENTRY, 33)), "33 entries");
    check(are_good_items(add(0, ELFSEE_TABLE, 32)), "32 entries of the global offset table");
    check(is_bad_items(add(0, ELFSEE_TABLE, 33)), "33 entries of the global offset table");
    check(are_good_items(add(0, ELFSEE_THREAD, 32)), "32 entries of thread-local symbols");
    check(is_bad_items(add(0, ELFSEE_THREAD, 33)), "33 entries of thread-local symbols");
    size_t all = add(add(add(0, ELFSEE_SECTION, 64), ELFSEE_DEFINE, 32), ELFSEE_ENTRY, 32);
    check(are_good_items(add(add(all, ELFSEE_TABLE, 32), ELFSEE_THREAD, 32)),
          "as many items as a layout holds, with the same names of four kinds");
    check(is_bad_items(add(add(all, ELFSEE_TABLE, 32), ELFSEE_THREAD, 33)), "one item more");
}

static void odd_items(void) {
    size_t count = add(add(add(0, ELFSEE_SECTION, 2), ELFSEE_DEFINE, 2), ELFSEE_ENTRY, 2);
    check(are_good_items(count), "two items of each kind");
    items[1].index = items[0].index;
    check(is_bad_items(count), "a section twice");
    items[1].index = 65536;
    check(is_bad_items(count), "a section of index 65,536");
    items[1].index = UINT32_MAX;
    check(is_bad_items(count), "a section of index 4,294,967,295");
    items[1].index = 65535;
    check(are_good_items(count), "a section of index 65,535");
    item_names[3][1] = item_names[2][1];
    check(is_bad_items(count), "a definition twice");
    item_names[3][1] = 200;
    item_names[5][1] = item_names[4][1];
    check(is_bad_items(count), "an entry twice");
    item_names[5][1] = 200;
    items[4].kind = items[5].kind = ELFSEE_TABLE;
    check(are_good_items(count), "two entries of the global offset table");
    item_names[5][1] = item_names[4][1];
    check(is_bad_items(count), "an entry of the global offset table twice");
    items[5].kind = ELFSEE_THREAD;
    check(are_good_items(count), "entries of two kinds with one name");
    items[4].kind = ELFSEE_THREAD;
    check(is_bad_items(count), "an entry of a thread-local symbol twice");
    item_names[5][1] = 200;
    items[4].kind = 5;
    check(is_bad_items(count), "an item of kind 5");
    items[4].kind = UINT32_MAX;
    check(is_bad_items(count), "an item of kind 4,294,967,295");
}

static void item_lengths(void) {
    uint8_t bytes[300];
    size_t len, at;
    int good = 1, bad = 1, nul = 1;
    memset(bytes, 'n', sizeof bytes);
    for (len = 0; len < 300; len += 1) {
        struct lent name = lend_copy(bytes, len, len & 1);
        struct elfsee_item item = {0x1000, name.bytes, len, ELFSEE_DEFINE + len % 4, UINT32_MAX};
        items[0] = item;
        if (len >= 1 && len <= 255)
            good &= are_good_items(1);
        else
            bad &= is_bad_items(1);
        take_back(&name);
    }
    check(good, "names of 1 to 255 bytes");
    check(bad, "names of no byte, and of 256 to 299");
    for (at = 0; at < 255; at += 1) {
        bytes[at] = 0;
        struct lent name = lend_copy(bytes, 255, at & 1);
        struct elfsee_item item = {0x1000, name.bytes, 255, ELFSEE_DEFINE + at % 4, 0};
        items[0] = item;
        nul &= is_bad_items(1);
        take_back(&name);
        bytes[at] = 'n';
    }
    check(nul, "names with a NUL at each place");
}

/* ------------------------------------------------------------------------- */
/* Borrowed layouts. */

static struct elfsee_lent_section lent_sections[ITEMS];
static struct elfsee_lent_name lent_names[5][ITEMS];

/* A layout with a given number of items of each sort, which rise. */
static struct elfsee_layout risen(size_t count) {
    static uint8_t bytes[ITEMS][2];
    struct elfsee_layout layout = {lent_sections, count, lent_names[1], count, lent_names[2], count,
                                   lent_names[3], count, lent_names[4], count};
    size_t at, sort;
    for (at = 0; at < count; at += 1) {
        struct elfsee_lent_name name = {bytes[at], 2, 0x1000 * at};
        bytes[at][0] = (uint8_t)(1 + at / 200);
        bytes[at][1] = (uint8_t)(1 + at % 200);
        lent_sections[at].index = (uint16_t)(at + 1);
        lent_sections[at].address = 0x1000 * at;
        for (sort = 1; sort < 5; sort += 1) lent_names[sort][at] = name;
    }
    return layout;
}

static int is_bad_layout(const struct elfsee_layout *layout) {
    struct elfsee_missing missing;
    struct elfsee_end end;
    return is_bad(place(limits_of(4096, 0), ROOM, 1, layout, OUT, &missing, &end), &end) &&
           is_zero(&missing, sizeof missing);
}

static int is_good_layout(const struct elfsee_layout *layout) {
    struct elfsee_missing missing;
    struct elfsee_end end;
    uint32_t status = place(limits_of(4096, 0), ROOM, 1, layout, OUT, &missing, &end);
    paint();
    return (status == ELFSEE_OK || status == ELFSEE_REFUSED) && end.none == 0;
}

static void lent_layouts(void) {
    struct elfsee_layout layout = risen(ITEMS), shorter;
    struct elfsee_missing missing;
    struct elfsee_end end;
    uint8_t long_name[300];
    size_t at, sort;
    int indices = 1, orders = 1, twice = 1, lengths = 1, nuls = 1;
    check(is_good_layout(&NO_LAYOUT), "a layout of no items at NULL");
    check(is_good_layout(&layout), "200 items of each sort");
    for (at = 1; at < ITEMS; at += 1) {
        lent_sections[at].index = (uint16_t)at;
        indices &= is_bad_layout(&layout);
        lent_sections[at].index = 0;
        indices &= is_bad_layout(&layout);
        layout = risen(ITEMS);
        for (sort = 1; sort < 5; sort += 1) {
            struct elfsee_lent_name kept = lent_names[sort][at];
            lent_names[sort][at] = lent_names[sort][at - 1];
            twice &= is_bad_layout(&layout);
            lent_names[sort][at - 1] = kept;
            lent_names[sort][at] = kept;
            twice &= is_bad_layout(&layout);
            layout = risen(ITEMS);
            lent_names[sort][at].name_len = 1;
            orders &= (at % 200 == 0) == is_good_layout(&layout);
            lent_names[sort][at].name_len = 0;
            lengths &= is_bad_layout(&layout);
            layout = risen(ITEMS);
        }
    }
    check(indices, "sections whose indices do not rise");
    check(orders, "names that do not rise");
    check(twice, "names that are there twice");
    check(lengths, "names of no byte");
    memset(long_name, 'n', sizeof long_name);
    lengths = 1;
    for (sort = 1; sort < 5; sort += 1) {
        lent_names[sort][ITEMS - 1].name = long_name;
        lent_names[sort][ITEMS - 1].name_len = 255;
        lengths &= is_good_layout(&layout);
        lent_names[sort][ITEMS - 1].name_len = 256;
        lengths &= is_bad_layout(&layout);
        lent_names[sort][ITEMS - 1].name_len = 255;
        for (at = 0; at < 255; at += 1) {
            long_name[at] = 0;
            nuls &= is_bad_layout(&layout);
            long_name[at] = 'n';
        }
        layout = risen(ITEMS);
    }
    check(lengths, "names of 255 and of 256 bytes");
    check(nuls, "names with a NUL at each place, in a layout that is lent");
    shorter = risen(60);
    shorter.definitions_len = shorter.linkage_len = 0;
    check(place(limits_of(4096, 0), ROOM, 1, &shorter, OUT, &missing, &end) == ELFSEE_REFUSED &&
              (missing.helpful == 2 || missing.helpful == 6) && missing.name_len == 5 && missing.is_cut == 0 &&
              !memcmp(missing.name, "other", 5) && is_zero(missing.name + 5, sizeof missing.name - 5) && end.written == 0,
          "what a layout lacks");
    paint();
    lent_names[1][0].name = (const uint8_t *)"other";
    lent_names[1][0].name_len = 5;
    shorter = NO_LAYOUT;
    shorter.definitions = lent_names[1];
    shorter.definitions_len = 1;
    check(place(limits_of(4096, 0), ROOM, 1, &shorter, OUT, &missing, &end) == ELFSEE_REFUSED && missing.helpful == 1 &&
              missing.section == 1,
          "the section that a layout lacks");
    paint();
}

static void sections(void) {
    static const uint32_t numbers[] = {0, 60000, 65279, 65535, 65536, 65537, UINT32_MAX};
    struct elfsee_end end;
    struct elfsee_limits limits = limits_of(4096, 0);
    unsigned i;
    int all = 1;
    for (i = 0; i < 7; i += 1) {
        uint32_t status = apply(limits, ROOM, numbers[i], items, 0, OUT, &end);
        all &= (status == ELFSEE_REFUSED && end.cause == ELFSEE_BAD_LINK && end.at == 0x3c) ||
               (numbers[i] > 65535 && status == ELFSEE_BAD_CALL);
        all &= end.written == 0;
    }
    check(all, "sections that are not there");
    paint();
}

static void small_section(void) {
    struct elfsee_end end;
    size_t count = add(add(0, ELFSEE_SECTION, 60), ELFSEE_DEFINE, 1), len, whole;
    struct elfsee_limits limits = limits_of(4096, 0);
    static const uint8_t other[] = "other";
    int all = 1;
    items[60].name = other;
    items[60].name_len = 5;
    check(apply(limits, ROOM, 1, items, count, OUT, &end) == ELFSEE_OK && end.written > 0, "a section");
    whole = (size_t)end.written;
    for (len = 0; len < whole; len += 1) {
        paint();
        all &= apply(limits, ROOM, 1, items, count, len, &end) == ELFSEE_FULL && end.written <= len;
        all &= out.bytes[len] == MARK;
    }
    check(all, "a section without room for all of it");
    check(apply(limits, ROOM, 1, items, count, whole, &end) == ELFSEE_OK && end.written == whole,
          "a section with just its room");
    paint();
}
