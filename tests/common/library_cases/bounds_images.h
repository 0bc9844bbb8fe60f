/* Images of segments, what they lack, and the relocations that dynamic entries locate, by any numbers: for bounds.c. */

enum { IMAGE_NUMBERS = 40, IMAGE_COPIES = 8 };

static struct elfsee_image_item image_numbers[IMAGE_NUMBERS];
static struct elfsee_copied image_copies[IMAGE_COPIES];

/* Items in ascending order: each above the one before it. */
static struct elfsee_image_items risen_items(void) {
    static uint8_t bytes[64];
    struct elfsee_image_items items = {image_numbers, next() % IMAGE_NUMBERS, image_copies, next() % IMAGE_COPIES,
                                       (uint32_t)(next() & 1), (uint32_t)next()};
    size_t i;
    uint32_t kind = 0;
    uint64_t key = 0;
    for (i = 0; i < items.numbers_len; i += 1) {
        if (next() % 4 == 0) kind += 1, key = 0;
        struct elfsee_image_item item = {kind, key, next()};
        image_numbers[i] = item;
        key += 1 + next() % 3;
    }
    for (i = 0; i < items.copies_len; i += 1) {
        struct elfsee_copied copy = {(uint32_t)(2 * i + next() % 2), (uint32_t)any(2), bytes, next() % 65};
        image_copies[i] = copy;
    }
    if (!items.numbers_len && next() & 1) items.numbers = 0;
    if (!items.copies_len && next() & 1) items.copies = 0;
    return items;
}

/* Whether items are as they have to be. */
static int do_rise(const struct elfsee_image_items *items) {
    size_t i;
    for (i = 1; i < items->numbers_len; i += 1) {
        const struct elfsee_image_item *one = &items->numbers[i - 1], *other = &items->numbers[i];
        if (one->kind > other->kind || (one->kind == other->kind && one->key >= other->key)) return 0;
    }
    for (i = 1; i < items->copies_len; i += 1) {
        if (items->copies[i - 1].index >= items->copies[i].index) return 0;
    }
    return items->partial <= 1;
}

/* Such items, at times with one that is not. */
static struct elfsee_image_items any_items(void) {
    struct elfsee_image_items items = risen_items();
    if (next() % 4 == 0 && items.numbers_len) image_numbers[next() % items.numbers_len].key = any(9);
    if (next() % 4 == 0 && items.copies_len) image_copies[next() % items.copies_len].index = (uint32_t)any(9);
    if (next() % 8 == 0) items.partial = (uint32_t)any(2);
    return items;
}

static int any_image(void) {
    struct lent file = changed(&library), some_room = lend(next() % (64 * 50), next() & 1);
    struct lent window = lend(next() % 200, next() & 1), some_out = lend(next() % 20000, next() & 1);
    struct elfsee_limits limits = any_limits();
    struct elfsee_end end = ODD;
    struct elfsee_image_items items = any_items();
    uint32_t status = elfsee_image(file.bytes, file.len, &limits, (uint16_t)any(8), &items, some_room.bytes, some_room.len,
                                   window.bytes, window.len, some_out.bytes, some_out.len, &end);
    int all = is_end(&end, status, &limits, some_out.len) && status != ELFSEE_ABSENT;
    int is_good = limits.headers >= 1 && limits.headers <= 65279 && some_room.len >= 64 && window.len >= 16 && do_rise(&items);
    all &= (status == ELFSEE_BAD_CALL) == !is_good;
    all &= status == ELFSEE_OK || status == ELFSEE_FULL || end.written == 0;
    take_back(&file);
    return take_back(&some_room) & take_back(&window) & take_back(&some_out) & all;
}

static int any_lacking(void) {
    struct lent file = changed(&library), some_room = lend(next() % (64 * 50), next() & 1);
    struct lent rows = lend(next() % 9 * sizeof(struct elfsee_lacking), next() & 1);
    struct elfsee_limits limits = any_limits();
    struct elfsee_end end = ODD;
    struct elfsee_image_items items = any_items();
    uint64_t index = next() & 1 ? next() % 9 : any(9), before = index;
    size_t most = rows.len / sizeof(struct elfsee_lacking);
    uint32_t status = elfsee_next_lacking(file.bytes, file.len, &limits, &items, some_room.bytes, some_room.len, &index,
                                          (struct elfsee_lacking *)(void *)rows.bytes, most, &end);
    int all = is_end(&end, status, &limits, 0) && status != ELFSEE_FULL;
    int is_good = limits.headers >= 1 && limits.headers <= 65279 && some_room.len >= 64 && do_rise(&items);
    all &= (status == ELFSEE_BAD_CALL) == !is_good;
    all &= status == ELFSEE_OK ? index > before && index - before <= most : index == before;
    take_back(&file);
    return take_back(&some_room) & take_back(&rows) & all;
}

static int any_located(void) {
    struct lent file = changed(&library), some_room = lend(next() % (64 * 50), next() & 1);
    struct elfsee_limits limits = any_limits();
    struct elfsee_end end = ODD;
    struct elfsee_rows rows = any_rows(file.len), old = rows;
    struct elfsee_short_relocation shorts[7];
    uint64_t words[7];
    uint32_t table = (uint32_t)any(4);
    uint32_t status = elfsee_located_relocations(file.bytes, file.len, &limits, table, some_room.bytes, some_room.len, &rows,
                                                 &end);
    int all = is_end(&end, status, &limits, 0) && status != ELFSEE_FULL;
    int is_good = limits.headers >= 1 && limits.headers <= 65279 && some_room.len >= 64 && table <= ELFSEE_AT_JMPREL;
    all &= (status == ELFSEE_BAD_CALL) == !is_good;
    if (status == ELFSEE_OK) {
        all &= rows.index == 0 && rows.strings_at == 0 && rows.strings_len == 0;
        all &= rows.entry == 8 || rows.entry == 16 || rows.entry == 24;
        all &= rows.count > 0 && rows.at <= file.len && rows.count <= (file.len - rows.at) / rows.entry;
    } else {
        all &= !memcmp(&rows, &old, sizeof rows);
    }
    rows = any_rows(file.len);
    old = rows;
    all &= elfsee_next_short_relocations(file.bytes, file.len, &rows, shorts, 7) == rows.index - old.index;
    rows = any_rows(file.len);
    old = rows;
    all &= elfsee_next_relative_words(file.bytes, file.len, &rows, words, 7) == rows.index - old.index;
    take_back(&file);
    return take_back(&some_room) & all;
}
