/* Times the library's calls over a file in memory, for bench/library:
 *
 *     library_calls FILE RUNS PARTS
 *
 * It prints lines `WHAT SECONDS COUNT SUM`, with the least processor seconds of RUNS runs: `rows` iterates over
 * all symbols with their names, `libelf` does the same by libelf if it is built with -DWITH_LIBELF, `listing` lists
 * those parts of the file into memory that was written before. COUNT and SUM are of symbols and of bytes of names, or of bytes. */
#define _GNU_SOURCE
#include "elfsee.h"

#include <fcntl.h>
#include <stdio.h>
#include <stdlib.h>
#include <string.h>
#include <time.h>
#include <unistd.h>
#ifdef WITH_LIBELF
#include <gelf.h>
#endif

enum { SOME = 256 };

struct done {
    uint64_t count, sum;
};

static uint8_t *file, *room, *out;
static size_t file_len, room_len, out_len;
static uint16_t parts; /* of a listing */
static const struct elfsee_limits LIMITS = {65279, 256, 0, 0};

/* Goes over the rows of one table. */
static void add_symbols(struct elfsee_rows *rows, struct done *done) {
    struct elfsee_symbol some[SOME];
    struct elfsee_range strings = {rows->strings_at, rows->strings_len}, name = {0, 0};
    struct elfsee_end end = {0, 0, 0, 0, 0};
    size_t i, count = SOME;
    while (count == SOME) {
        count = elfsee_next_symbols(file, file_len, rows, some, SOME);
        for (i = 0; i < count; i += 1) {
            if (elfsee_name(file, file_len, &strings, some[i].name, &name, &end) == ELFSEE_OK)
                done->sum += name.len;
            done->count += 1;
        }
    }
}

static struct done rows(void) {
    struct done done = {0, 0};
    struct elfsee_header header;
    struct elfsee_section section;
    struct elfsee_end end = {0, 0, 0, 0, 0};
    struct elfsee_rows table = {0, 0, 0, 0, 0, 0};
    uint16_t index;
    memset(&header, 0, sizeof header);
    memset(&section, 0, sizeof section);
    elfsee_header(file, file_len, &header, &end);
    for (index = 0; index < header.shnum; index += 1) {
        /* elfsee_symbols reads the headers of all sections, elfsee_section one. */
        if (elfsee_section(file, file_len, index, &section, &end) != ELFSEE_OK) break;
        if (section.type != 2 && section.type != 11) continue;
        if (elfsee_symbols(file, file_len, &LIMITS, index, room, room_len, &table, &end) == ELFSEE_OK)
            add_symbols(&table, &done);
    }
    return done;
}

static struct done listing(void) {
    struct elfsee_end end = {0, 0, 0, 0, 0};
    uint32_t status = elfsee_show(file, file_len, &LIMITS, parts, room, room_len, out, out_len, &end);
    struct done done = {end.written, status};
    return done;
}

#ifdef WITH_LIBELF
static struct done libelf(void) {
    struct done done = {0, 0};
    Elf *elf = elf_memory((char *)file, file_len);
    Elf_Scn *section = 0;
    GElf_Shdr header;
    GElf_Sym symbol;
    while ((section = elf_nextscn(elf, section))) {
        if (!gelf_getshdr(section, &header) || (header.sh_type != SHT_SYMTAB && header.sh_type != SHT_DYNSYM))
            continue;
        Elf_Data *data = elf_getdata(section, 0);
        int i, count = (int)(header.sh_size / header.sh_entsize);
        for (i = 0; i < count && gelf_getsym(data, i, &symbol); i += 1) {
            const char *name = elf_strptr(elf, header.sh_link, symbol.st_name);
            if (name) done.sum += strlen(name);
            done.count += 1;
        }
    }
    elf_end(elf);
    return done;
}
#endif

static double now(void) {
    struct timespec at;
    clock_gettime(CLOCK_PROCESS_CPUTIME_ID, &at);
    return (double)at.tv_sec + 1e-9 * (double)at.tv_nsec;
}

static void measure(const char *what, struct done (*call)(void), int runs) {
    struct done done = {0, 0};
    double best = 1e9;
    for (; runs > 0; runs -= 1) {
        double began = now(), took;
        done = call();
        took = now() - began;
        if (took < best) best = took;
    }
    printf("%s %.9f %llu %llu\n", what, best, (unsigned long long)done.count, (unsigned long long)done.sum);
}

static void read_file(const char *path) {
    int fd = open(path, O_RDONLY);
    off_t len = fd < 0 ? -1 : lseek(fd, 0, SEEK_END);
    if (len < 0) exit(2);
    file = malloc((size_t)len + 1);
    while (file && file_len < (size_t)len) {
        ssize_t count = pread(fd, file + file_len, (size_t)len - file_len, (off_t)file_len);
        if (count <= 0) exit(2);
        file_len += (size_t)count;
    }
    close(fd);
}

int main(int argc, char **argv) {
    if (argc < 4) return 2;
    read_file(argv[1]);
    parts = (uint16_t)atoi(argv[3]);
    room_len = (size_t)elfsee_room(file, file_len, LIMITS.headers);
    room = malloc(room_len);
    out_len = 32 * file_len + (1 << 20);
    out = malloc(out_len);
    if (!file || !room || !out) return 2;
    measure("rows", rows, atoi(argv[2]));
#ifdef WITH_LIBELF
    elf_version(EV_CURRENT);
    measure("libelf", libelf, atoi(argv[2]));
#endif
    measure("listing", listing, atoi(argv[2]));
    return 0;
}
