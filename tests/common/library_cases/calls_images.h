/* Images of segments, what they lack, and the relocations that dynamic entries locate: for calls.c. */

enum { MOST_NUMBERS = 4096, MOST_COPIES = 64, COPY_BYTES = 1 << 16 };

/* The items of a line, sorted as they have to be: each list in memory of its own. */
struct given {
    struct elfsee_image_items items;
    struct lent numbers, copies;
};

static int by_item(const void *one, const void *other) {
    const struct elfsee_image_item *a = (const struct elfsee_image_item *)one, *b = (const struct elfsee_image_item *)other;
    if (a->kind != b->kind) return a->kind < b->kind ? -1 : 1;
    return a->key < b->key ? -1 : a->key > b->key;
}

static int by_copy(const void *one, const void *other) {
    const struct elfsee_copied *a = (const struct elfsee_copied *)one, *b = (const struct elfsee_copied *)other;
    return a->index < b->index ? -1 : a->index > b->index;
}

/* Numbers are KIND:KEY:VALUE, in decimal digits but for the last two, which are hexadecimal, and copies INDEX:HEX, both
 * joined by commas, or -. The bytes of copies are as they are and digits by turns. */
static struct given given_of(char *numbers_text, char *copies_text, uint32_t partial) {
    static struct elfsee_image_item numbers[MOST_NUMBERS];
    static struct elfsee_copied copies[MOST_COPIES];
    static uint8_t bytes[COPY_BYTES];
    size_t count = 0, copied = 0, filled = 0;
    char *word;
    for (word = strtok(numbers_text, ","); word && *word != '-'; word = strtok(0, ",")) {
        unsigned long long key, value;
        if (sscanf(word, "%" SCNu32 ":%llx:%llx", &numbers[count].kind, &key, &value) != 3) wrong("an item");
        numbers[count].key = key;
        numbers[count++].value = value;
    }
    for (word = strtok(copies_text, ","); word && *word != '-'; word = strtok(0, ",")) {
        char *digits = strchr(word, ':') + 1;
        size_t len = strlen(digits);
        copies[copied].index = (uint32_t)strtoul(word, 0, 10);
        copies[copied].digits = turn++ & 1;
        copies[copied].bytes = bytes + filled;
        if (copies[copied].digits) memcpy(bytes + filled, digits, len);
        copies[copied].bytes_len = copies[copied].digits ? len : bytes_of(digits, bytes + filled);
        filled += len;
        copied += 1;
    }
    qsort(numbers, count, sizeof *numbers, by_item);
    qsort(copies, copied, sizeof *copies, by_copy);
    struct given given = {{0, count, 0, copied, partial, 0}, lend_copy(numbers, count * sizeof *numbers, turn & 1),
                          lend_copy(copies, copied * sizeof *copies, turn & 1)};
    if (count || turn & 4) given.items.numbers = (struct elfsee_image_item *)(void *)given.numbers.bytes;
    if (copied || turn & 4) given.items.copies = (struct elfsee_copied *)(void *)given.copies.bytes;
    return given;
}

static void take_back_given(struct given *given) {
    expect(take_back(&given->numbers) && take_back(&given->copies), "a list was written");
}

static void image(const struct lent *file, char **words) {
    struct elfsee_limits limits = limits_of(words[0], "1", words[1]);
    uint16_t segment = (uint16_t)strtoul(words[2], 0, 0);
    size_t window_len = (size_t)strtoul(words[4], 0, 0), out_len = 64;
    struct given given = given_of(words[5], words[6], (uint32_t)atoi(words[3]));
    size_t room_len = (size_t)elfsee_room(file->bytes, file->len, limits.headers);
    struct elfsee_end end = {7, 7, 7, 7, 7};
    struct lent room, window, out;
    uint32_t status;
    for (;; out_len *= 4) {
        out = lend(out_len, turn & 1);
        window = lend(window_len, turn & 4);
        room = lend(room_len, turn++ & 2);
        status = elfsee_image(file->bytes, file->len, &limits, segment, &given.items, room.bytes, room.len, window.bytes,
                              window.len, out.bytes, out_len, &end);
        expect(is_whole(&out), "out was written outside");
        expect(take_back(&room) && take_back(&window), "room was written outside");
        if (status != ELFSEE_FULL) break;
        expect(end.written == out_len, "written is not all of out");
        expect(take_back(&out), "out was written outside");
    }
    expect(end.written <= out_len && (status == ELFSEE_OK || end.written == 0), "written is wrong");
    expect(!limits.has_budget || end.asked <= limits.budget, "more was read than the budget has");
    answer(status, &end, UINT64_MAX, out.bytes, status == ELFSEE_OK ? (size_t)end.written : 0);
    if (status == ELFSEE_OK && end.written) {
        struct lent less = lend((size_t)end.written - 1, turn & 1);
        window = lend(window_len, turn & 4);
        room = lend(room_len, turn++ & 2);
        expect(elfsee_image(file->bytes, file->len, &limits, segment, &given.items, room.bytes, room.len, window.bytes,
                            window.len, less.bytes, less.len, &end) == ELFSEE_FULL,
               "a segment without room for its last byte");
        expect(!memcmp(less.bytes, out.bytes, less.len), "another front of the segment");
        expect(take_back(&less) && take_back(&room) && take_back(&window), "written outside");
    }
    take_back(&out);
    take_back_given(&given);
}

/* The entries that lack an item, EACH in one call. */
static void lacking(const struct lent *file, char **words) {
    struct walk walk;
    memset(&walk, 0, sizeof walk);
    walk.limits = limits_of(words[0], "256", words[1]);
    size_t each = (size_t)atoi(words[2]), room_len = (size_t)elfsee_room(file->bytes, file->len, walk.limits.headers);
    struct given given = given_of(words[3], words[4], 0);
    uint64_t index = 0, before, asked = 0;
    uint32_t status = ELFSEE_OK;
    while (status == ELFSEE_OK) {
        struct lent room = lend(room_len, turn++ & 2), out = lend(each * sizeof(struct elfsee_lacking), turn & 1);
        struct elfsee_lacking *rows = (struct elfsee_lacking *)(void *)out.bytes;
        before = index;
        status = elfsee_next_lacking(file->bytes, file->len, &walk.limits, &given.items, room.bytes, room.len, &index,
                                     rows, each, &walk.end);
        expect(is_whole(&out) && take_back(&room), "room or out was written outside");
        expect(index - before <= each && (status == ELFSEE_OK) == (index > before), "another number of entries");
        expect(walk.end.written == 0 && walk.end.none == 0, "the end is not clear");
        for (size_t i = 0; i < index - before; i += 1) {
            expect(rows[i].none == 0, "none is not 0");
            say(&walk, "%016" PRIx64 " %016" PRIx64 " %" PRIu32 " %" PRIu32 " %" PRIu32 "\n", rows[i].at, rows[i].place,
                rows[i].type, rows[i].symbol, rows[i].cause);
        }
        if (walk.end.asked > asked) asked = walk.end.asked;
        take_back(&out);
    }
    walk.end.asked = asked;
    answer(status, &walk.end, UINT64_MAX, walk.text ? walk.text : "", walk.len);
    free(walk.text);
    take_back_given(&given);
}

/* The rows of the four tables that dynamic entries locate, up to the first refusal: the table, and the fields, `-` for
 * those that a row has not. */
static void located(const struct lent *file, char **words) {
    struct walk walk;
    memset(&walk, 0, sizeof walk);
    walk.limits = limits_of(words[0], "256", words[1]);
    size_t room_len = (size_t)elfsee_room(file->bytes, file->len, walk.limits.headers), i, count;
    uint32_t table, status = ELFSEE_OK;
    for (table = ELFSEE_AT_RELR; table <= ELFSEE_AT_JMPREL && status != ELFSEE_REFUSED; table += 1) {
        struct elfsee_rows rows = {7, 7, 7, 7, 7, 7};
        struct lent room = lend(room_len, turn++ & 2);
        status = elfsee_located_relocations(file->bytes, file->len, &walk.limits, table, room.bytes, room.len, &rows,
                                            &walk.end);
        expect(take_back(&room), "room was written outside");
        if (status != ELFSEE_OK) expect(rows.at == 7 && rows.strings_len == 7, "rows were written where none are");
        if (status != ELFSEE_OK) continue;
        expect(rows.index == 0 && rows.strings_at == 0 && rows.strings_len == 0, "another position");
        struct elfsee_relocation entries[5];
        struct elfsee_short_relocation shorts[5];
        uint64_t relative[5];
        while (rows.entry == 24 && (count = elfsee_next_relocations(file->bytes, file->len, &rows, entries, 5)))
            for (i = 0; i < count; i += 1)
                say(&walk, "%" PRIu32 " %016" PRIx64 " %" PRIu64 " %" PRIu64 " %" PRId64 "\n", table, entries[i].offset,
                    entries[i].info & 0xffffffff, entries[i].info >> 32, entries[i].addend);
        while (rows.entry == 16 && (count = elfsee_next_short_relocations(file->bytes, file->len, &rows, shorts, 5)))
            for (i = 0; i < count; i += 1)
                say(&walk, "%" PRIu32 " %016" PRIx64 " %" PRIu64 " %" PRIu64 " -\n", table, shorts[i].offset,
                    shorts[i].info & 0xffffffff, shorts[i].info >> 32);
        while (rows.entry == 8 && (count = elfsee_next_relative_words(file->bytes, file->len, &rows, relative, 5)))
            for (i = 0; i < count; i += 1) say(&walk, "%" PRIu32 " %016" PRIx64 " - - -\n", table, relative[i]);
        expect(rows.index == rows.count, "rows are left");
    }
    answer(status, &walk.end, UINT64_MAX, walk.text ? walk.text : "", walk.len);
    free(walk.text);
}
