/* Calls the library as the lines of standard input say, for tests/gate/library.py. A line is one of
 *
 *     show HEADERS NAME BUDGET PARTS PATH
 *     list HEADERS NAME BUDGET PARTS FLAGS PATH        by elfsee_list
 *     names HEADERS NAME BUDGET PARTS FLAGS NAMES PATH by elfsee_list_names: names in hexadecimal digits,
 *                                            joined by commas, or -
 *     hashed HEADERS BUDGET FLAGS PATH       the symbols of the hash table, a line for each
 *     find HEADERS BUDGET NAME PATH          NAME in hexadecimal digits, or -
 *     resolve HEADERS BUDGET FLAGS NAME VERSION PATH   both in hexadecimal digits, or -
 *     apply HEADERS BUDGET SECTION ITEMS PATH
 *     place HEADERS BUDGET SECTION ITEMS PATH          the same in a borrowed layout; if it is refused
 *                                            the bytes say what that lacks
 *     image HEADERS BUDGET SEGMENT PARTIAL WINDOW NUMBERS COPIES PATH   the bytes of a segment
 *     lacking HEADERS BUDGET EACH NUMBERS COPIES PATH  the entries that lack an item, EACH in one call
 *     located HEADERS BUDGET PATH            the relocations that dynamic entries locate
 *     rows PATH
 *     versions PATH                          the lines of symbol versions
 *     members PATH                           the lines of the members of an archive
 *     words                                  the words of the causes
 *
 * BUDGET is a number, or - for none; ITEMS are KIND:INDEX:NAME:ADDRESS joined by commas, with the name in
 * hexadecimal digits, or -; NUMBERS and COPIES are described in calls_images.h. The answer is a line STATUS CAUSE AT WRITTEN ASKED COST LENGTH, and LENGTH bytes; if
 * a call does something that it must not do the line is WRONG and what it did. All caller's buffers are next to
 * pages that cannot be touched, and the file cannot be written. */
#define _GNU_SOURCE
#include "elfsee.h"
#include "lent.h"

#include <fcntl.h>
#include <inttypes.h>
#include <stdarg.h>
#include <stdio.h>
#include <sys/stat.h>
#include <unistd.h>

enum { MOST_ITEMS = 2000, HEADER_BYTES = 64 };

static unsigned turn; /* memory that is passed is next to the page after it and to that before it by turns */

static void wrong(const char *what) {
    printf("WRONG %s\n", what);
    fflush(stdout);
    exit(1);
}

static void expect(int is_so, const char *what) {
    if (!is_so) wrong(what);
}

static struct lent read_file(const char *path) {
    int fd = open(path, O_RDONLY);
    struct stat found;
    if (fd < 0 || fstat(fd, &found)) wrong("the file is not opened");
    struct lent file = lend((size_t)found.st_size, turn & 1);
    size_t at = 0;
    while (at < file.len) {
        ssize_t count = pread(fd, file.bytes + at, file.len - at, (off_t)at);
        if (count <= 0) wrong("the file is not read");
        at += (size_t)count;
    }
    close(fd);
    if (mprotect(file.inner, file.inner_len, PROT_READ)) abort();
    return file;
}

static struct elfsee_limits limits_of(const char *headers, const char *name, const char *budget) {
    struct elfsee_limits limits = {(uint16_t)atoi(headers), (uint16_t)atoi(name), 0, 0};
    limits.has_budget = *budget != '-';
    if (limits.has_budget) limits.budget = strtoull(budget, 0, 0);
    return limits;
}

/* Bytes of hexadecimal digits; gives how many there are. */
static size_t bytes_of(const char *digits, uint8_t *bytes) {
    size_t len = 0;
    unsigned byte;
    for (; *digits != '-' && sscanf(digits, "%2x", &byte) == 1; digits += 2)
        bytes[len++] = (uint8_t)byte;
    return len;
}

static void answer(uint32_t status, const struct elfsee_end *end, uint64_t cost, const void *text,
                   size_t len) {
    printf("%" PRIu32 " %" PRIu32 " %" PRIu64 " %" PRIu64 " %" PRIu64 " %" PRIu64 " %zu\n", status,
           end->cause, end->at, end->written, end->asked, cost, len);
    fwrite(text, 1, len, stdout);
}

static int is_same(const struct elfsee_end *one, const struct elfsee_end *other) {
    return one->at == other->at && one->written == other->written && one->asked == other->asked &&
           one->cause == other->cause && one->none == 0 && other->none == 0;
}

/* ------------------------------------------------------------------------- */

struct shown {
    struct lent out;
    struct elfsee_end end;
    uint32_t status;
};

static struct shown show_into(const struct lent *file, const struct elfsee_limits *limits, uint16_t parts,
                              size_t room_len, size_t out_len) {
    struct shown shown = {lend(out_len, turn & 1), {7, 7, 7, 7, 7}, 0};
    struct lent room = lend(room_len, turn++ & 2);
    shown.status = elfsee_show(file->bytes, file->len, limits, parts, room.bytes, room.len, shown.out.bytes,
                               out_len, &shown.end);
    expect(is_whole(&shown.out), "out was written outside");
    expect(take_back(&room), "room was written outside");
    expect(shown.end.written <= out_len, "more written than lent");
    expect(shown.end.none == 0, "none is not 0");
    return shown;
}

/* The same call once more, with other room or less out, and what has to come. */
static void show_again(const struct lent *file, const struct elfsee_limits *limits, uint16_t parts,
                       size_t room_len, size_t out_len, const struct shown *whole) {
    struct shown again = show_into(file, limits, parts, room_len, out_len);
    if (out_len < whole->end.written) {
        expect(again.status == ELFSEE_FULL && again.end.written == out_len, "another status than full");
    } else {
        expect(again.status == whole->status && is_same(&again.end, &whole->end),
               "another answer with other room");
    }
    expect(!memcmp(again.out.bytes, whole->out.bytes, (size_t)again.end.written),
           "another text with other room");
    take_back(&again.out);
}

/* The listing in a style. After the struct there are zeros, as many as the turn says, as of a later version's
 * fields: they must not matter. */
static struct shown list_into(const struct lent *file, const struct elfsee_limits *limits,
                              const struct elfsee_listing *asked, size_t room_len, size_t out_len) {
    struct shown shown = {lend(out_len, turn & 1), {7, 7, 7, 7, 7}, 0};
    size_t asked_len = sizeof *asked + (turn & 3) * 4;
    struct lent room = lend(room_len, turn & 2), listing = lend(asked_len, turn & 4);
    turn++;
    memset(listing.bytes, 0, asked_len);
    memcpy(listing.bytes, asked, sizeof *asked);
    shown.status = elfsee_list(file->bytes, file->len, limits, (const void *)listing.bytes, asked_len, room.bytes,
                               room.len, shown.out.bytes, out_len, &shown.end);
    expect(!memcmp(listing.bytes, asked, sizeof *asked), "the struct was written");
    expect(take_back(&listing), "the struct was written outside");
    expect(is_whole(&shown.out), "out was written outside");
    expect(take_back(&room), "room was written outside");
    expect(shown.end.written <= out_len, "more written than lent");
    expect(shown.end.none == 0, "none is not 0");
    return shown;
}

/* Names that are passed, and their texts. */
struct names {
    struct lent list, texts[MOST_ITEMS];
    size_t count;
};

static struct names *names_of(char *words) {
    static struct names names;
    static uint8_t bytes[1 << 16];
    char *rest, *word = *words == '-' ? 0 : strtok_r(words, ",", &rest);
    struct elfsee_text *texts;
    size_t i;
    names.count = 0;
    for (; word && names.count < MOST_ITEMS; word = strtok_r(0, ",", &rest)) {
        names.texts[names.count] = lend_copy(bytes, bytes_of(word, bytes), turn++ & 1);
        names.count += 1;
    }
    names.list = lend(names.count * sizeof *texts, turn & 1);
    texts = (struct elfsee_text *)(void *)names.list.bytes;
    for (i = 0; i < names.count; i += 1) {
        struct elfsee_text text = {names.texts[i].bytes, names.texts[i].len};
        texts[i] = text;
    }
    return &names;
}

static struct shown list_names_into(const struct lent *file, const struct elfsee_limits *limits,
                                    const struct elfsee_listing *asked, const struct names *names,
                                    size_t room_len, size_t out_len) {
    struct shown shown = {lend(out_len, turn & 1), {7, 7, 7, 7, 7}, 0};
    struct lent room = lend(room_len, turn & 2);
    const struct elfsee_text *texts = (void *)names->list.bytes;
    turn++;
    shown.status = elfsee_list_names(file->bytes, file->len, limits, asked, sizeof *asked,
                                     names->count || turn & 4 ? texts : 0, names->count, room.bytes, room.len,
                                     shown.out.bytes, out_len, &shown.end);
    expect(is_whole(&shown.out), "out was written outside");
    expect(take_back(&room), "room was written outside");
    expect(shown.end.written <= out_len && shown.end.none == 0, "written is wrong");
    return shown;
}

static void list_names(const struct lent *file, char **words) {
    struct elfsee_limits limits = limits_of(words[0], words[1], words[2]);
    struct elfsee_listing asked = {(uint16_t)atoi(words[3]), (uint16_t)atoi(words[4])};
    struct names *names = names_of(words[5]);
    size_t room_len = (size_t)elfsee_room(file->bytes, file->len, limits.headers), out_len = 64, i;
    struct shown shown = list_names_into(file, &limits, &asked, names, room_len, out_len);
    while (shown.status == ELFSEE_FULL) {
        expect(shown.end.written == out_len, "full, and not written to the end");
        take_back(&shown.out);
        out_len *= 4;
        shown = list_names_into(file, &limits, &asked, names, room_len, out_len);
    }
    answer(shown.status, &shown.end, UINT64_MAX, shown.out.bytes, (size_t)shown.end.written);
    take_back(&shown.out);
    expect(take_back(&names->list), "the list of names was written outside");
    for (i = 0; i < names->count; i += 1) take_back(&names->texts[i]);
}

static void list(const struct lent *file, char **words) {
    struct elfsee_limits limits = limits_of(words[0], words[1], words[2]);
    struct elfsee_listing asked = {(uint16_t)atoi(words[3]), (uint16_t)atoi(words[4])};
    size_t room_len = HEADER_BYTES * (size_t)limits.headers, out_len = 1 << 16;
    struct shown shown = list_into(file, &limits, &asked, room_len, out_len);
    while (shown.status == ELFSEE_FULL) {
        expect(shown.end.written == out_len, "full, and not written to the end");
        take_back(&shown.out);
        out_len *= 4;
        shown = list_into(file, &limits, &asked, room_len, out_len);
    }
    answer(shown.status, &shown.end, elfsee_cost(file->len, &limits), shown.out.bytes, (size_t)shown.end.written);
    take_back(&shown.out);
}

static void show(const struct lent *file, char **words) {
    struct elfsee_limits limits = limits_of(words[0], words[1], words[2]);
    uint16_t parts = (uint16_t)atoi(words[3]);
    size_t room_len = HEADER_BYTES * (size_t)limits.headers, out_len = 1 << 16;
    struct shown shown = show_into(file, &limits, parts, room_len, out_len);
    while (shown.status == ELFSEE_FULL) {
        expect(shown.end.written == out_len, "full, and not written to the end");
        take_back(&shown.out);
        out_len *= 4;
        shown = show_into(file, &limits, parts, room_len, out_len);
    }
    size_t written = (size_t)shown.end.written;
    uint64_t wanted = elfsee_room(file->bytes, file->len, limits.headers);
    expect(wanted >= HEADER_BYTES && wanted <= room_len, "room out of its range");
    show_again(file, &limits, parts, (size_t)wanted, written, &shown);
    if (written) show_again(file, &limits, parts, (size_t)wanted, written - 1, &shown);
    if (written) show_again(file, &limits, parts, room_len, written / 2, &shown);
    answer(shown.status, &shown.end, elfsee_cost(file->len, &limits), shown.out.bytes, written);
    take_back(&shown.out);
}

static void find(const struct lent *file, char **words) {
    struct elfsee_limits limits = limits_of(words[0], "1", words[1]);
    static uint8_t bytes[1 << 16];
    struct lent name = lend_copy(bytes, bytes_of(words[2], bytes), turn & 1);
    struct lent room = lend(HEADER_BYTES * (size_t)limits.headers, turn++ & 2);
    struct lent less = lend((size_t)elfsee_room(file->bytes, file->len, limits.headers), turn & 1);
    struct elfsee_found found = {{7, 7, 7, 7, 7, 7}, 7, 7, 7, 7, 7}, again = found;
    struct elfsee_end end = {7, 7, 7, 7, 7}, end_again = end;
    uint32_t status = elfsee_find(file->bytes, file->len, &limits, room.bytes, room.len, name.bytes, name.len,
                                  &found, &end);
    uint32_t status_again = elfsee_find(file->bytes, file->len, &limits, less.bytes, less.len, name.bytes,
                                        name.len, &again, &end_again);
    expect(status == status_again && is_same(&end, &end_again), "another answer with other room");
    expect(!memcmp(&found, &again, sizeof found), "another symbol with other room");
    expect(take_back(&room) && take_back(&less), "room was written outside");
    take_back(&name);
    char text[256];
    int len = snprintf(text, sizeof text,
                       "%u %" PRIu32 " %" PRIu64 " %" PRIu64 " %u %u %u %" PRIu32 " %" PRIu32 " %u %" PRIu32,
                       found.section, found.index, found.symbol.value, found.symbol.size, found.symbol.info,
                       found.symbol.other, found.symbol.section, found.symbol.name, found.steps, found.none,
                       found.none_behind);
    answer(status, &end, UINT64_MAX, text, (size_t)len);
}

/* Where a range of a lookup is: within the file. */
static void expect_name(const struct lent *file, const struct elfsee_resolved *resolved) {
    expect(resolved->version.len <= 256 && resolved->is_cut <= 1 && resolved->is_hidden <= 1 &&
               resolved->has_version <= 1 && resolved->number < 32768,
           "a version out of its range");
    expect(resolved->version.len == 0 || (resolved->version.at <= file->len &&
                                          resolved->version.len <= file->len - resolved->version.at),
           "the name of a version outside the file");
}

static void resolve(const struct lent *file, char **words) {
    struct elfsee_limits limits = limits_of(words[0], "1", words[1]);
    uint32_t flags = (uint32_t)atoi(words[2]);
    static uint8_t bytes[1 << 16];
    struct lent name = lend_copy(bytes, bytes_of(words[3], bytes), turn & 1);
    struct lent version = lend_copy(bytes, bytes_of(words[4], bytes), turn & 2);
    struct lent room = lend(HEADER_BYTES * (size_t)limits.headers, turn++ & 2);
    struct lent less = lend((size_t)elfsee_room(file->bytes, file->len, limits.headers), turn & 1);
    struct elfsee_resolved resolved, again;
    struct elfsee_end end = {7, 7, 7, 7, 7}, end_again = end;
    memset(&resolved, 7, sizeof resolved);
    memset(&again, 9, sizeof again);
    uint32_t status = elfsee_look_up(file->bytes, file->len, &limits, flags, name.bytes, name.len, version.bytes,
                                     version.len, room.bytes, room.len, &resolved, &end);
    uint32_t status_again = elfsee_look_up(file->bytes, file->len, &limits, flags, name.bytes, name.len,
                                           version.bytes, version.len, less.bytes, less.len, &again, &end_again);
    expect(status == status_again && is_same(&end, &end_again), "another answer with other room");
    expect(!memcmp(&resolved, &again, sizeof resolved), "another symbol with other room");
    expect(take_back(&room) && take_back(&less), "room was written outside");
    expect_name(file, &resolved);
    char text[1024];
    int len = snprintf(text, sizeof text,
                       "%u %" PRIu64 " %" PRIu64 " %" PRIu64 " %u %u %u %" PRIu32 " %" PRIu64 " %u %" PRIu32
                       " %" PRIu32 " %" PRIu32 " %" PRIu32 " %u %u ",
                       resolved.section, resolved.index, resolved.symbol.value, resolved.symbol.size,
                       resolved.symbol.info, resolved.symbol.other, resolved.symbol.section,
                       resolved.symbol.name, resolved.tried, resolved.none, resolved.none_behind,
                       resolved.has_version, resolved.is_hidden, resolved.is_cut, resolved.words,
                       resolved.number);
    const uint8_t *told = version.len ? version.bytes : file->bytes + resolved.version.at;
    size_t told_len = version.len ? version.len : (size_t)resolved.version.len, i;
    for (i = 0; i < told_len && i < 256; i += 1) {
        len += snprintf(text + len, sizeof text - (size_t)len, "%02x", told[i]);
    }
    answer(status, &end, UINT64_MAX, text, (size_t)len);
    take_back(&name);
    take_back(&version);
}

/* Items from their text; the names are in `names`, one after another. */
static size_t items_of(char *words, struct elfsee_item *items, uint8_t *names) {
    size_t count = 0;
    char *rest, *word = *words == '-' ? 0 : strtok_r(words, ",", &rest);
    for (; word && count < MOST_ITEMS; word = strtok_r(0, ",", &rest)) {
        struct elfsee_item item = {0, names, 0, 0, 0};
        char digits[600];
        if (sscanf(word, "%" SCNu32 ":%" SCNu32 ":%599[^:]:%" SCNx64, &item.kind, &item.index, digits,
                   &item.address) != 4)
            wrong("an item is not read");
        item.name_len = bytes_of(digits, names);
        names += item.name_len + 1;
        items[count++] = item;
    }
    return count;
}

static void apply(const struct lent *file, char **words) {
    static struct elfsee_item items[MOST_ITEMS];
    static uint8_t names[MOST_ITEMS * 300];
    struct elfsee_limits limits = limits_of(words[0], "1", words[1]);
    struct elfsee_job job = {items, items_of(words[3], items, names), (uint32_t)strtoul(words[2], 0, 0),
                             0xffffffff};
    struct elfsee_end end = {7, 7, 7, 7, 7};
    size_t room_len = (size_t)elfsee_room(file->bytes, file->len, limits.headers), out_len = 64;
    uint32_t status;
    struct lent out, room;
    for (;; out_len *= 4) {
        out = lend(out_len, turn & 1);
        room = lend(room_len, turn++ & 2);
        status = elfsee_apply(file->bytes, file->len, &limits, &job, room.bytes, room.len, out.bytes, out_len,
                              &end);
        expect(is_whole(&out), "out was written outside");
        expect(take_back(&room), "room was written outside");
        if (status != ELFSEE_FULL) break;
        expect(take_back(&out), "out was written outside");
    }
    expect(end.written <= out_len && (status == ELFSEE_OK || end.written == 0), "written is wrong");
    answer(status, &end, UINT64_MAX, out.bytes, (size_t)end.written);
    if (status == ELFSEE_OK && end.written) {
        struct lent less = lend((size_t)end.written - 1, turn & 1);
        room = lend(room_len, turn++ & 2);
        expect(elfsee_apply(file->bytes, file->len, &limits, &job, room.bytes, room.len, less.bytes, less.len,
                            &end) == ELFSEE_FULL,
               "a section without room for its last byte");
        expect(take_back(&less) && take_back(&room), "written outside");
    }
    take_back(&out);
}

/* Names in the rising order of their bytes. */
static int by_name(const void *one, const void *other) {
    const struct elfsee_lent_name *a = one, *b = other;
    int order = memcmp(a->name, b->name, a->name_len < b->name_len ? a->name_len : b->name_len);
    return order ? order : a->name_len < b->name_len ? -1 : a->name_len > b->name_len;
}

static int by_index(const void *one, const void *other) {
    const struct elfsee_lent_section *a = one, *b = other;
    return a->index < b->index ? -1 : a->index > b->index;
}

/* A layout of items, each list where no byte next to it can be touched; one without items is at NULL by turns. */
static struct elfsee_layout layout_of(const struct elfsee_item *items, size_t count, struct lent *lists) {
    static struct elfsee_lent_section sections[MOST_ITEMS];
    static struct elfsee_lent_name names[5][MOST_ITEMS];
    size_t counts[5] = {0}, at, kind;
    for (at = 0; at < count; at += 1) {
        struct elfsee_lent_name name = {items[at].name, items[at].name_len, items[at].address};
        if (items[at].kind == ELFSEE_SECTION) {
            memset(&sections[counts[0]], 7, sizeof *sections);
            sections[counts[0]].index = (uint16_t)items[at].index;
            sections[counts[0]++].address = items[at].address;
        } else {
            names[items[at].kind][counts[items[at].kind]++] = name;
        }
    }
    qsort(sections, counts[0], sizeof *sections, by_index);
    lists[0] = lend_copy(sections, counts[0] * sizeof *sections, turn & 1);
    for (kind = 1; kind < 5; kind += 1) {
        qsort(names[kind], counts[kind], sizeof **names, by_name);
        lists[kind] = lend_copy(names[kind], counts[kind] * sizeof **names, turn & 1);
    }
    struct elfsee_layout layout = {(void *)lists[0].bytes, counts[0], (void *)lists[1].bytes, counts[1],
                                   (void *)lists[2].bytes, counts[2], (void *)lists[3].bytes, counts[3],
                                   (void *)lists[4].bytes, counts[4]};
    if (turn & 4 && !counts[0]) layout.sections = 0;
    if (turn & 4 && !counts[1]) layout.definitions = 0;
    if (turn & 4 && !counts[2]) layout.linkage = 0;
    if (turn & 4 && !counts[3]) layout.table = 0;
    if (turn & 4 && !counts[4]) layout.thread = 0;
    return layout;
}

/* What a layout lacks, as the numbers and the name in hexadecimal digits. */
static size_t say_missing(const struct elfsee_missing *missing, char *text, size_t size) {
    size_t len, i;
    expect(missing->name_len <= 255 && missing->is_cut <= 1 && missing->helpful < 32, "missing out of its range");
    for (i = missing->name_len; i < sizeof missing->name; i += 1) expect(missing->name[i] == 0, "a byte behind a name");
    len = (size_t)snprintf(text, size, "%" PRIu32 " %" PRIu32 " %" PRIu32 " %" PRIu32 " ", missing->helpful,
                           missing->section, missing->relocation, missing->is_cut);
    for (i = 0; i < missing->name_len; i += 1) len += (size_t)snprintf(text + len, size - len, "%02x", missing->name[i]);
    return len;
}

static void place(const struct lent *file, char **words) {
    static struct elfsee_item items[MOST_ITEMS];
    static uint8_t names[MOST_ITEMS * 300];
    static const struct elfsee_missing nothing;
    struct elfsee_limits limits = limits_of(words[0], "1", words[1]);
    struct lent lists[5], room, out;
    struct elfsee_layout layout = layout_of(items, items_of(words[3], items, names), lists);
    uint16_t section = (uint16_t)strtoul(words[2], 0, 0);
    struct elfsee_missing missing;
    struct elfsee_end end = {7, 7, 7, 7, 7};
    size_t room_len = (size_t)elfsee_room(file->bytes, file->len, limits.headers), out_len = 64;
    uint32_t status;
    char text[1024];
    for (;; out_len *= 4) {
        memset(&missing, 7, sizeof missing);
        out = lend(out_len, turn & 1);
        room = lend(room_len, turn++ & 2);
        status = elfsee_apply_lent(file->bytes, file->len, &limits, section, &layout, room.bytes, room.len, out.bytes,
                                   out_len, &missing, &end);
        expect(is_whole(&out), "out was written outside");
        expect(take_back(&room), "room was written outside");
        if (status != ELFSEE_FULL) break;
        expect(take_back(&out), "out was written outside");
    }
    expect(end.written <= out_len && (status == ELFSEE_OK || end.written == 0), "written is wrong");
    expect(status == ELFSEE_REFUSED || !memcmp(&missing, &nothing, sizeof missing), "missing where nothing is refused");
    size_t len = say_missing(&missing, text, sizeof text);
    answer(status, &end, UINT64_MAX, status == ELFSEE_OK ? (char *)out.bytes : text,
           status == ELFSEE_OK ? (size_t)end.written : len);
    if (status == ELFSEE_OK && end.written) {
        struct lent less = lend((size_t)end.written - 1, turn & 1);
        room = lend(room_len, turn++ & 2);
        expect(elfsee_apply_lent(file->bytes, file->len, &limits, section, &layout, room.bytes, room.len, less.bytes,
                                 less.len, &missing, &end) == ELFSEE_FULL,
               "a section without room for its last byte");
        expect(take_back(&less) && take_back(&room), "written outside");
    }
    take_back(&out);
    for (len = 0; len < 5; len += 1) expect(take_back(&lists[len]), "a list was written");
}

#include "calls_rows.h"
#include "calls_images.h"

/* The words of the causes, a line for each number. */
static void words_of_causes(void) {
    static const struct elfsee_end none;
    char text[4096];
    size_t len = 0;
    uint32_t cause;
    for (cause = 0; cause < 64; cause += 1) {
        uint8_t word[32];
        len += (size_t)snprintf(text + len, sizeof text - len, "%" PRIu32 " %.*s\n", cause,
                                (int)elfsee_cause_word(cause, word, sizeof word), (const char *)word);
    }
    answer(ELFSEE_OK, &none, elfsee_version(), text, len);
}

/* Splits a line into a given number of words and what is after them. */
static void split(char *line, char **words, size_t count) {
    while (count--) {
        *words++ = line;
        line = strchr(line, ' ');
        if (!line) wrong("a line has too few words");
        *line++ = 0;
    }
    *words = line;
}

static void answer_line(char *line) {
    char *words[9];
    size_t count = !strncmp(line, "show ", 5)      ? 5
                   : !strncmp(line, "list ", 5)    ? 6
                   : !strncmp(line, "names ", 6)   ? 7
                   : !strncmp(line, "hashed ", 7)  ? 4
                   : !strncmp(line, "find ", 5)    ? 4
                   : !strncmp(line, "resolve ", 8) ? 6
                   : !strncmp(line, "apply ", 6)   ? 5
                   : !strncmp(line, "place ", 6)   ? 5
                   : !strncmp(line, "image ", 6)   ? 8
                   : !strncmp(line, "lacking ", 8) ? 6
                   : !strncmp(line, "located ", 8) ? 3
                                                   : 1;
    if (!strcmp(line, "words")) {
        words_of_causes();
        return;
    }
    split(line, words, count);
    struct lent file = read_file(words[count]);
    if (!strcmp(words[0], "show")) show(&file, words + 1);
    if (!strcmp(words[0], "list")) list(&file, words + 1);
    if (!strcmp(words[0], "names")) list_names(&file, words + 1);
    if (!strcmp(words[0], "hashed")) hashed(&file, words + 1);
    if (!strcmp(words[0], "find")) find(&file, words + 1);
    if (!strcmp(words[0], "resolve")) resolve(&file, words + 1);
    if (!strcmp(words[0], "apply")) apply(&file, words + 1);
    if (!strcmp(words[0], "place")) place(&file, words + 1);
    if (!strcmp(words[0], "image")) image(&file, words + 1);
    if (!strcmp(words[0], "lacking")) lacking(&file, words + 1);
    if (!strcmp(words[0], "located")) located(&file, words + 1);
    if (!strcmp(words[0], "rows")) rows(&file);
    if (!strcmp(words[0], "versions")) versions(&file);
    if (!strcmp(words[0], "members")) members(&file);
    take_back(&file);
}

int main(void) {
    char *line = 0;
    size_t size = 0;
    ssize_t len;
    while ((len = getline(&line, &size, stdin)) > 0) {
        line[len - 1] = 0;
        answer_line(line);
        fflush(stdout);
    }
    free(line);
    return 0;
}
