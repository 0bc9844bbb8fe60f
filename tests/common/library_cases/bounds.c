/* Calls the library with numbers outside their ranges, with no room, with structs of any numbers and files of any
 * bytes, for tests/gate/library.py:
 *
 *     bounds OBJECT LIBRARY TRIES
 *
 * OBJECT is a relocatable file for x86-64 with relocation entries for section 1, LIBRARY has a hash table with
 * the name `call`. All caller's buffers are next to pages that cannot be touched, file and names cannot be
 * written. It must be built with -fsanitize=address,undefined. It prints a line for each case, and as the last one
 * `N passed, N failed`. */
#define _GNU_SOURCE
#include "elfsee.h"
#include "lent.h"

#include <fcntl.h>
#include <stdio.h>
#include <sys/stat.h>
#include <unistd.h>

enum { OUT = 1 << 16, ROOM = 64 * 100, NAMED = 32, ITEMS = 200 };

static unsigned passed, failed;
static struct lent object, library, room, out;

static void check(int is_so, const char *name) {
    printf("%s %s\n", is_so ? "ok" : "FAILED", name);
    passed += is_so != 0;
    failed += is_so == 0;
}

static struct lent read_file(const char *path) {
    int fd = open(path, O_RDONLY);
    struct stat found;
    uint8_t *bytes;
    if (fd < 0 || fstat(fd, &found)) abort();
    bytes = (uint8_t *)mmap(0, (size_t)found.st_size, PROT_READ, MAP_PRIVATE, fd, 0);
    if (bytes == MAP_FAILED) abort();
    struct lent file = lend_copy(bytes, (size_t)found.st_size, 0);
    munmap(bytes, (size_t)found.st_size);
    close(fd);
    return file;
}

static struct elfsee_limits limits_of(unsigned headers, unsigned name) {
    struct elfsee_limits limits = {(uint16_t)headers, (uint16_t)name, 0, 0};
    return limits;
}

static const struct elfsee_end ODD = {77, 77, 77, 77, 77};

/* Whether all of out and room is unchanged. */
static int is_untouched(void) {
    size_t at;
    for (at = 0; at < out.len; at += 1) {
        if (out.bytes[at] != MARK) return 0;
    }
    for (at = 0; at < room.len; at += 1) {
        if (room.bytes[at] != MARK) return 0;
    }
    return 1;
}

static void paint(void) {
    memset(out.bytes, MARK, out.len);
    memset(room.bytes, MARK, room.len);
}

/* Whether a call that is bad left everything as it was. */
static int is_bad(uint32_t status, const struct elfsee_end *end) {
    int is_so = status == ELFSEE_BAD_CALL && end->written == 0 && end->asked == 0 && is_untouched();
    paint();
    return is_so;
}

static int is_zero(const void *bytes, size_t len) {
    size_t at;
    for (at = 0; at < len; at += 1) {
        if (((const uint8_t *)bytes)[at]) return 0;
    }
    return 1;
}

#include "bounds_calls.h"
#include "bounds_limits.h"
#include "bounds_items.h"
#include "bounds_numbers.h"
#include "bounds_images.h"

static void many(const char *name, int (*call)(void), unsigned tries) {
    int all = 1;
    unsigned i;
    for (i = 0; i < tries && all; i += 1)
        all &= call();
    if (!all) printf("try %u of: ", i);
    check(all, name);
}

/* What calls answer over a file of no bytes, at this address: their statuses, and how the last one ended. */
static void over_no_file(const uint8_t *file, uint32_t *told, struct elfsee_end *end) {
    struct elfsee_limits limits = limits_of(4096, 256);
    static const struct elfsee_item item;
    struct elfsee_job job = {&item, 0, 1, 0};
    struct elfsee_found found;
    struct elfsee_header header;
    struct elfsee_section section;
    struct elfsee_segment segment;
    struct elfsee_rows rows = {0, 1, 0, 24, 0, 0};
    struct elfsee_range range = {0, 0}, name;
    struct elfsee_notes notes = {0, 12, 4, 0, 0};
    struct elfsee_note note;
    struct elfsee_members members = {0, {0, 0}, 0, 0};
    struct elfsee_member member;
    struct elfsee_missing missing;
    struct elfsee_version_records records = {0, 100, 0, 0, 0, 9, 0, 0, 1, 0};
    struct elfsee_version_record record;
    unsigned at = 0, table;
    told[at++] = elfsee_apply_lent(file, 0, &limits, 1, &NO_LAYOUT, room.bytes, ROOM, out.bytes, OUT, &missing, end);
    told[at++] = elfsee_next_version_record(file, 0, &records, &record, end);
    told[at++] = elfsee_version_records(file, 0, &limits, 1, room.bytes, ROOM, &records, end);
    told[at++] = elfsee_show(file, 0, &limits, ELFSEE_ALL, room.bytes, ROOM, out.bytes, OUT, end);
    told[at++] = elfsee_find(file, 0, &limits, room.bytes, ROOM, (const uint8_t *)"call", 4, &found, end);
    told[at++] = elfsee_apply(file, 0, &limits, &job, room.bytes, ROOM, out.bytes, OUT, end);
    told[at++] = elfsee_header(file, 0, &header, end);
    told[at++] = elfsee_section(file, 0, 0, &section, end);
    told[at++] = elfsee_segment(file, 0, 0, &segment, end);
    for (table = 0; table < TABLE_COUNT; table += 1)
        told[at++] = TABLES[table].call(file, 0, &limits, 1, room.bytes, ROOM, &rows, end);
    told[at++] = elfsee_section_names(file, 0, &limits, room.bytes, ROOM, &name, end);
    told[at++] = elfsee_segment_dynamic(file, 0, 0, &rows, end);
    told[at++] = elfsee_notes(file, 0, 0, &notes, end);
    told[at++] = elfsee_segment_notes(file, 0, 0, &notes, end);
    told[at++] = elfsee_next_note(file, 0, &notes, &note, end);
    told[at++] = elfsee_members(file, 0, &members, end);
    told[at++] = elfsee_next_member(file, 0, &members, &member, end);
    told[at++] = elfsee_mapped(file, 0, 0, 0, &name, end);
    told[at++] = elfsee_name(file, 0, &range, 1, &name, end);
    told[at++] = elfsee_name(file, 0, &range, 0, &name, end);
    told[at++] = (uint32_t)elfsee_room(file, 0, 4096);
    paint();
}

enum { TOLD = 24 };

/* If a file, a room, an output or a name has no bytes, NULL is as good an address as another. */
static void no_memory(void) {
    struct elfsee_limits limits = limits_of(4096, 256);
    static const struct elfsee_item item;
    struct elfsee_job job = {&item, 0, 1, 0};
    struct elfsee_end ends[2] = {ODD, ODD};
    struct elfsee_found found;
    struct elfsee_rows rows = {0, 1, 0, 24, 0, 0};
    uint32_t told[2][TOLD] = {{0}};
    static uint8_t some[1];
    unsigned i, table;
    int rooms = 1, outs = 1, names = 1;
    for (i = 0; i < 2; i += 1) {
        uint8_t *none = i ? some : NULL;
        over_no_file(none, told[i], &ends[i]);
        rooms &= is_bad(elfsee_show(object.bytes, object.len, &limits, ELFSEE_ALL, none, 0, out.bytes, OUT, &ends[i]),
                        &ends[i]);
        for (table = 0; table < TABLE_COUNT; table += 1)
            rooms &= is_bad(TABLES[table].call(object.bytes, object.len, &limits, 1, none, 0, &rows, &ends[i]),
                            &ends[i]);
        outs &= elfsee_show(object.bytes, object.len, &limits, ELFSEE_ALL, room.bytes, ROOM, none, 0, &ends[i])
                == ELFSEE_FULL;
        outs &= elfsee_show(object.bytes, object.len, &limits, 0, room.bytes, ROOM, none, 0, &ends[i]) == ELFSEE_OK;
        outs &= elfsee_apply(object.bytes, object.len, &limits, &job, room.bytes, ROOM, none, 0, &ends[i])
                == elfsee_apply(object.bytes, object.len, &limits, &job, room.bytes, ROOM, some, 0, &ends[1 - i]);
        outs &= elfsee_cause_word(ELFSEE_SHORT, none, 0) == 0;
        outs &= elfsee_next_symbols(object.bytes, object.len, &rows, NULL, 0) == 0;
        names &= elfsee_find(library.bytes, library.len, &limits, room.bytes, ROOM, none, 0, &found, &ends[i])
                 == ELFSEE_ABSENT;
    }
    paint();
    check(told[0][0] == ELFSEE_REFUSED && told[0][TOLD - 1] == 64 && memcmp(told[0], told[1], sizeof told[0]) == 0,
          "a file of no bytes at NULL");
    check(rooms, "room of no bytes at NULL");
    check(outs, "an output of no bytes at NULL");
    check(names, "a name of no bytes at NULL");
}

int main(int argc, char **argv) {
    if (argc < 4) return 2;
    unsigned tries = (unsigned)atoi(argv[3]);
    object = read_file(argv[1]);
    library = read_file(argv[2]);
    make_archive();
    out = lend(OUT, 0);
    room = lend(ROOM, 0);
    paint();
    bad_limits();
    small_room();
    bad_names();
    short_files();
    small_out();
    cause_words();
    no_memory();
    parts();
    names();
    loader_names();
    many_items();
    odd_items();
    item_lengths();
    lent_layouts();
    sections();
    small_section();
    many("next rows, by any numbers", any_steps, tries);
    many("next rows within any budget", any_steps_within, tries);
    many("dynamic entries opened within any budget", any_opening_within, tries);
    many("notes, by any numbers", any_notes, tries);
    many("records of versions, by any numbers", any_records, tries);
    first_members();
    cut_archives();
    many("members, by any numbers", any_members, tries);
    many("names, in any range", any_name, tries);
    many("headers of changed files", any_header, tries);
    many("segments of changed files, at any address", any_mapped, tries);
    many("listings of changed files, with any limits", any_show, tries);
    many("listings of changed files in any style, asked for by any bytes", any_list, tries);
    many("listings of the rows of any names", any_list_names, tries);
    many("symbols of the hash tables of changed files", any_hashed, tries);
    many("lookups in changed files, with any limits", any_find, tries);
    many("a loader's lookups in changed files, with any flags", any_look_up, tries);
    many("the bytes of sections of changed files", any_bytes, tries);
    many("sections of changed files, with any items", any_apply, tries);
    many("sections of changed files, in any layout that is lent", any_place, tries);
    many("images of segments of changed files, with any items", any_image, tries);
    many("what images of changed files lack, with any items", any_lacking, tries);
    many("tables that dynamic entries of changed files locate", any_located, tries);
    many("tables of changed files, with any limits", any_open, tries);
    many("records of versions of changed files, with any limits", any_open_records, tries);
    check(is_whole(&out) && is_whole(&room) && is_whole(&object) && is_whole(&library) && is_whole(&archive),
          "nothing beside was written");
    printf("%u passed, %u failed\n", passed, failed);
    return failed != 0;
}
