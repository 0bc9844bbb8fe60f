/* Measures how much of the stack each call of the library touches, for tests/gate/library.py:
 *
 *     stack FILE..
 *
 * Each call runs over each file on a stack of its own that is painted first. It prints lines `CALL BYTES`,
 * the maximum over all files. Names and sections in the calls are those of the files themselves. */
#define _GNU_SOURCE
#include "elfsee.h"
#include "lent.h"

#include <fcntl.h>
#include <stdio.h>
#include <sys/stat.h>
#include <ucontext.h>
#include <unistd.h>

enum { STACK = 1 << 20, ROOM = 64 * 65279, OUT = 1 << 26 };

static uint8_t *stack, *file, *room, *out;
static size_t file_len;
static uint16_t section; /* the one that a call is about */
static ucontext_t outside, inside;

static const struct elfsee_limits LIMITS = {65279, 4096, 0, 0};
static struct elfsee_end end;
static struct elfsee_rows rows;

static void call_show(void) {
    elfsee_show(file, file_len, &LIMITS, ELFSEE_ALL, room, ROOM, out, OUT, &end);
}

/* Listings in all styles, whole and of the rows of names. */
static void call_list(void) {
    static const struct elfsee_text names[] = {{(const uint8_t *)"main", 4}, {(const uint8_t *)"main@V", 6}};
    struct elfsee_listing listing = {ELFSEE_ALL + ELFSEE_VERSIONS, 0};
    for (listing.flags = ELFSEE_GNU; listing.flags < 32; listing.flags += 1) {
        listing.parts = ELFSEE_ALL;
        elfsee_list(file, file_len, &LIMITS, &listing, sizeof listing, room, ROOM, out, OUT, &end);
        for (listing.parts = ELFSEE_SYMBOLS; listing.parts <= ELFSEE_VERSIONS; listing.parts *= 2)
            elfsee_list_names(file, file_len, &LIMITS, &listing, sizeof listing, names, 2, room, ROOM, out, OUT, &end);
    }
}

static void call_hashed(void) {
    elfsee_hashed_symbols(file, file_len, &LIMITS, 0, room, ROOM, &rows, &end);
    elfsee_hashed_symbols(file, file_len, &LIMITS, ELFSEE_BY_SEGMENTS, room, ROOM, &rows, &end);
}

static void call_find(void) {
    static uint8_t name[4096];
    struct elfsee_found found = {{0, 0, 0, 0, 0, 0}, 0, 0, 0, 0, 0};
    memcpy(name, "main", 5);
    elfsee_find(file, file_len, &LIMITS, room, ROOM, name, 4, &found, &end);
    memset(name, 'n', sizeof name);
    elfsee_find(file, file_len, &LIMITS, room, ROOM, name, sizeof name, &found, &end);
}

/* Lookups as a loader does them, alone and with a version, by sections and by segments. */
static void call_look_up(void) {
    static uint8_t name[4096], version[4096];
    struct elfsee_resolved resolved;
    uint32_t flags;
    memset(&resolved, 0, sizeof resolved);
    memset(name, 'n', sizeof name);
    memset(version, 'v', sizeof version);
    for (flags = 0; flags < 4; flags += 1) {
        elfsee_look_up(file, file_len, &LIMITS, flags, (const uint8_t *)"call", 4, version, 0, room, ROOM,
                       &resolved, &end);
        elfsee_look_up(file, file_len, &LIMITS, flags, name, sizeof name, version, sizeof version, room, ROOM,
                       &resolved, &end);
    }
}

/* A layout with all that it can hold, so that as many entries as can be are applied. */
static void call_apply(void) {
    static struct elfsee_item items[192];
    static uint8_t names[192][255];
    struct elfsee_job job = {items, 192, section, 0};
    unsigned i;
    for (i = 0; i < 192; i += 1) {
        struct elfsee_item item = {0x400000 + 0x1000 * i, names[i], 0, ELFSEE_SECTION, i + 1};
        if (i >= 64) {
            memset(names[i], 'a' + (int)i % 32, 255);
            item.name_len = 255;
            item.kind = ELFSEE_DEFINE + (i - 64) / 32;
        }
        items[i] = item;
    }
    elfsee_apply(file, file_len, &LIMITS, &job, room, ROOM, out, OUT, &end);
}

/* In a borrowed layout, of which most is missing, so that the call says what would help. */
static void call_place(void) {
    static struct elfsee_lent_section sections[300];
    static struct elfsee_lent_name names[300];
    static uint8_t bytes[300][255];
    struct elfsee_layout layout = {sections, 300, names, 300, names, 300, names, 300, names, 300};
    struct elfsee_missing missing;
    unsigned i;
    memset(&missing, 0, sizeof missing);
    for (i = 0; i < 300; i += 1) {
        struct elfsee_lent_name name = {bytes[i], 255, 0x400000 + i};
        memset(bytes[i], 'a', 255);
        bytes[i][0] = (uint8_t)(1 + i / 250);
        bytes[i][1] = (uint8_t)(1 + i % 250);
        names[i] = name;
        sections[i].index = (uint16_t)(i + 1);
        sections[i].address = 0x400000 + 0x1000 * i;
    }
    elfsee_apply_lent(file, file_len, &LIMITS, section, &layout, room, ROOM, out, OUT, &missing, &end);
    layout.sections_len = 0;
    elfsee_apply_lent(file, file_len, &LIMITS, section, &layout, room, ROOM, out, OUT, &missing, &end);
}

static void call_images(void) {
    static uint8_t window[1 << 16];
    struct elfsee_image_items items = {0, 0, 0, 0, 1, 0};
    struct elfsee_lacking lacking[64];
    struct elfsee_short_relocation shorts;
    uint64_t index = 0, word;
    uint32_t table;
    elfsee_image(file, file_len, &LIMITS, section, &items, room, ROOM, window, section % 2 ? 16 : sizeof window, out, OUT, &end);
    elfsee_next_lacking(file, file_len, &LIMITS, &items, room, ROOM, &index, lacking, 64, &end);
    for (table = ELFSEE_AT_RELR; table <= ELFSEE_AT_JMPREL; table += 1)
        elfsee_located_relocations(file, file_len, &LIMITS, table, room, ROOM, &rows, &end);
    elfsee_next_short_relocations(file, file_len, &rows, &shorts, 1);
    elfsee_next_relative_words(file, file_len, &rows, &word, 1);
}

static void call_versions(void) {
    struct elfsee_version_records records;
    struct elfsee_version_record record;
    struct elfsee_version_word word;
    uint64_t asked = 0;
    memset(&records, 0, sizeof records);
    memset(&record, 0, sizeof record);
    if (elfsee_version_words(file, file_len, &LIMITS, section, room, ROOM, &rows, &end) == ELFSEE_OK) {
        elfsee_next_version_words(file, file_len, &rows, &word, 1);
        elfsee_next_version_words_within(file, file_len, &LIMITS, &asked, &rows, &word, 1, &end);
    }
    if (elfsee_version_records(file, file_len, &LIMITS, section, room, ROOM, &records, &end) == ELFSEE_OK)
        elfsee_next_version_record(file, file_len, &records, &record, &end);
}

static void call_symbols(void) {
    struct elfsee_symbol symbol;
    if (elfsee_symbols(file, file_len, &LIMITS, section, room, ROOM, &rows, &end) == ELFSEE_OK)
        elfsee_next_symbols(file, file_len, &rows, &symbol, 1);
}

static void call_relocations(void) {
    struct elfsee_relocation entry;
    if (elfsee_relocations(file, file_len, &LIMITS, section, room, ROOM, &rows, &end) == ELFSEE_OK)
        elfsee_next_relocations(file, file_len, &rows, &entry, 1);
}

static void call_dynamic(void) {
    struct elfsee_dynamic entry;
    if (elfsee_dynamic(file, file_len, &LIMITS, section, room, ROOM, &rows, &end) == ELFSEE_OK)
        elfsee_next_dynamic(file, file_len, &rows, &entry, 1);
    elfsee_segment_dynamic(file, file_len, section, &rows, &end);
}

static void call_within(void) {
    struct elfsee_symbol symbol;
    struct elfsee_relocation relocation;
    struct elfsee_dynamic entry;
    uint64_t asked = 0;
    elfsee_dynamic_within(file, file_len, &LIMITS, section, room, ROOM, &asked, &rows, &end);
    elfsee_next_dynamic_within(file, file_len, &LIMITS, &asked, &rows, &entry, 1, &end);
    elfsee_segment_dynamic_within(file, file_len, &LIMITS, section, &asked, &rows, &end);
    elfsee_next_symbols_within(file, file_len, &LIMITS, &asked, &rows, &symbol, 1, &end);
    elfsee_next_relocations_within(file, file_len, &LIMITS, &asked, &rows, &relocation, 1, &end);
}

static void call_notes(void) {
    struct elfsee_notes notes;
    struct elfsee_note note;
    memset(&notes, 0, sizeof notes);
    memset(&note, 0, sizeof note);
    elfsee_segment_notes(file, file_len, section, &notes, &end);
    elfsee_notes(file, file_len, section, &notes, &end);
    elfsee_next_note(file, file_len, &notes, &note, &end);
}

/* The first members; of a file that is no archive the bytes at its beginning, by a place in them. */
static void call_members(void) {
    struct elfsee_members members;
    struct elfsee_member member;
    unsigned count;
    memset(&members, 0, sizeof members);
    memset(&member, 0, sizeof member);
    elfsee_members(file, file_len, &members, &end);
    for (count = 0; count < 10; count += 1)
        elfsee_next_member(file, file_len, &members, &member, &end);
}

static void call_headers(void) {
    struct elfsee_header header;
    struct elfsee_section one;
    struct elfsee_segment segment;
    struct elfsee_range range = {0, file_len}, name = {0, 0};
    memset(&header, 0, sizeof header);
    memset(&one, 0, sizeof one);
    memset(&segment, 0, sizeof segment);
    elfsee_header(file, file_len, &header, &end);
    elfsee_section(file, file_len, section, &one, &end);
    elfsee_segment(file, file_len, section, &segment, &end);
    elfsee_section_names(file, file_len, &LIMITS, room, ROOM, &range, &end);
    elfsee_name(file, file_len, &range, one.name, &name, &end);
    elfsee_mapped(file, file_len, segment.vaddr, segment.filesz, &name, &end);
    elfsee_section_bytes(file, file_len, section, &name, &end);
    elfsee_room(file, file_len, LIMITS.headers);
    elfsee_cost(file_len, &LIMITS);
    elfsee_cause_word(end.cause, out, OUT);
}

static void call_nothing(void) {
}

/* How many bytes of the stack a call touches. */
static size_t touched(void (*call)(void)) {
    size_t at = 0;
    memset(stack, MARK, STACK);
    if (getcontext(&inside)) abort();
    inside.uc_stack.ss_sp = stack;
    inside.uc_stack.ss_size = STACK;
    inside.uc_link = &outside;
    makecontext(&inside, call, 0);
    if (swapcontext(&outside, &inside)) abort();
    while (at < STACK && stack[at] == MARK)
        at += 1;
    return STACK - at;
}

static const struct {
    const char *name;
    void (*call)(void);
    int each_section;
} CALLS[] = {{"nothing", call_nothing, 0}, {"show", call_show, 0},       {"find", call_find, 0},
             {"look_up", call_look_up, 0},     {"list", call_list, 0},           {"hashed", call_hashed, 0},
             {"apply", call_apply, 1},     {"symbols", call_symbols, 1}, {"relocations", call_relocations, 1},
             {"dynamic", call_dynamic, 1},     {"headers", call_headers, 1},
             {"within", call_within, 1},       {"apply_lent", call_place, 1}, {"versions", call_versions, 1},
             {"images", call_images, 1},
             {"notes", call_notes, 1},     {"members", call_members, 0}};
enum { COUNT = sizeof CALLS / sizeof *CALLS };

static void measure(const char *path, size_t *most) {
    int fd = open(path, O_RDONLY);
    struct stat found;
    size_t i, bytes;
    if (fd < 0 || fstat(fd, &found)) exit(2);
    file_len = (size_t)found.st_size;
    file = (uint8_t *)mmap(0, file_len, PROT_READ, MAP_PRIVATE, fd, 0);
    if (file == MAP_FAILED) exit(2);
    for (i = 0; i < COUNT; i += 1) {
        for (section = 0; section == 0 || (CALLS[i].each_section && section < 50); section += 1) {
            bytes = touched(CALLS[i].call);
            if (bytes > most[i]) most[i] = bytes;
        }
    }
    munmap(file, file_len);
    close(fd);
}

int main(int argc, char **argv) {
    size_t most[COUNT] = {0}, i;
    stack = lend(STACK, 1).bytes;
    room = lend(ROOM, 1).bytes;
    out = lend(OUT, 1).bytes;
    for (; argc > 1; argc -= 1)
        measure(argv[argc - 1], most);
    for (i = 0; i < COUNT; i += 1)
        printf("%s %zu\n", CALLS[i].name, most[i]);
    return 0;
}
