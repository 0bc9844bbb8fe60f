/* The calls of bounds.c. */

/* The calls, over the object or the library unless something else is said. */

static uint32_t show(struct elfsee_limits limits, size_t room_len, size_t out_len, struct elfsee_end *end) {
    *end = ODD;
    return elfsee_show(object.bytes, object.len, &limits, ELFSEE_ALL, room.bytes, room_len, out.bytes,
                       out_len, end);
}

static uint32_t find(struct elfsee_limits limits, size_t room_len, const char *name, size_t name_len,
                     struct elfsee_found *found, struct elfsee_end *end) {
    struct lent lent = lend_copy(name, name_len, name_len & 1);
    memset(found, 77, sizeof *found);
    *end = ODD;
    uint32_t status = elfsee_find(library.bytes, library.len, &limits, room.bytes, room_len, lent.bytes,
                                  name_len, found, end);
    take_back(&lent);
    return status;
}

static uint32_t look_up(struct elfsee_limits limits, size_t room_len, uint32_t flags, const char *name,
                        size_t name_len, const char *version, size_t version_len,
                        struct elfsee_resolved *resolved, struct elfsee_end *end) {
    struct lent lent = lend_copy(name, name_len, name_len & 1);
    struct lent wanted = lend_copy(version, version_len, version_len & 1);
    memset(resolved, 77, sizeof *resolved);
    *end = ODD;
    uint32_t status = elfsee_look_up(library.bytes, library.len, &limits, flags, lent.bytes, name_len,
                                     wanted.bytes, version_len, room.bytes, room_len, resolved, end);
    take_back(&lent);
    take_back(&wanted);
    return status;
}

static uint32_t apply(struct elfsee_limits limits, size_t room_len, uint32_t section,
                      const struct elfsee_item *items, size_t count, size_t out_len, struct elfsee_end *end) {
    struct elfsee_job job = {items, count, section, 77};
    *end = ODD;
    return elfsee_apply(object.bytes, object.len, &limits, &job, room.bytes, room_len, out.bytes, out_len,
                        end);
}

static uint32_t place(struct elfsee_limits limits, size_t room_len, uint16_t section,
                      const struct elfsee_layout *layout, size_t out_len, struct elfsee_missing *missing,
                      struct elfsee_end *end) {
    *end = ODD;
    memset(missing, 77, sizeof *missing);
    return elfsee_apply_lent(object.bytes, object.len, &limits, section, layout, room.bytes, room_len, out.bytes,
                             out_len, missing, end);
}

static const struct elfsee_layout NO_LAYOUT;

/* Names that are passed: the list and the bytes of each lie at pages that cannot be touched. */
enum { MOST_NAMES = 6 };

struct names {
    struct lent list, texts[MOST_NAMES];
    size_t count;
};

static struct names lend_names(const struct elfsee_text *texts, size_t count) {
    struct names names;
    struct elfsee_text *list;
    size_t i;
    memset(&names, 0, sizeof names);
    names.count = count;
    names.list = lend(count * sizeof *list, 0);
    list = (struct elfsee_text *)(void *)names.list.bytes;
    for (i = 0; i < count; i += 1) {
        names.texts[i] = lend_copy(texts[i].bytes, texts[i].len, i & 1);
        list[i].bytes = names.texts[i].bytes;
        list[i].len = texts[i].len;
    }
    return names;
}

static int take_names(struct names *names) {
    int whole = take_back(&names->list);
    size_t i;
    for (i = 0; i < names->count; i += 1) whole &= take_back(&names->texts[i]);
    return whole;
}

static uint32_t list_names(struct elfsee_limits limits, size_t room_len, struct elfsee_listing asked,
                           const struct elfsee_text *texts, size_t count, size_t out_len, struct elfsee_end *end) {
    struct names names = lend_names(texts, count);
    *end = ODD;
    uint32_t status = elfsee_list_names(library.bytes, library.len, &limits, &asked, sizeof asked,
                                        (const struct elfsee_text *)(void *)names.list.bytes, count, room.bytes,
                                        room_len, out.bytes, out_len, end);
    check(take_names(&names), "names are not written");
    return status;
}

typedef uint32_t opens(const uint8_t *, size_t, const struct elfsee_limits *, uint16_t, uint8_t *, size_t,
                       struct elfsee_rows *, struct elfsee_end *);
static const struct elfsee_listing SYMBOLS_ALONE = {ELFSEE_SYMBOLS, 0};

static const struct {
    const char *name;
    opens *call;
} TABLES[] = {{"symbols", elfsee_symbols},
              {"relocations", elfsee_relocations},
              {"dynamic", elfsee_dynamic},
              {"version words", elfsee_version_words}};
enum { TABLE_COUNT = sizeof TABLES / sizeof *TABLES };
