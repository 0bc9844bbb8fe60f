/* The lines of a symbol and of a relocation entry, as `elfsee show` writes them, for bench/floor.c and
   bench/peers.c. Each function writes at `put`, and returns where the next one writes. */
#include <elf.h>
#include <stdio.h>
#include <string.h>

static char pairs[256][2], plain[256];

/* A number in some hexadecimal digits, two at a time, and a space. */
static inline char *hex(char *put, unsigned long number, int digits) {
    for (int left = digits - 2; left >= 0; left -= 2, number >>= 8) memcpy(put + left, pairs[number & 255], 2);
    put[digits] = ' ';
    return put + digits + 1;
}

/* A number in decimal at the right of a column of at most ten, and a space. */
static inline char *decimal(char *put, unsigned long number, int width) {
    char digits[40], *first = digits + 20;
    do *--first = '0' + number % 10; while (number /= 10);
    int count = digits + 20 - first, spaces = width > count ? width - count : 0;
    memcpy(put, "          ", 10);
    memcpy(put + spaces, first, 20);
    put[spaces + count] = ' ';
    return put + spaces + count + 1;
}

/* A name of a number at the left of a column of at most ten, and a space. */
static inline char *word(char *put, const char *name, int width) {
    memcpy(put, "            ", 12);
    for (char *to = put; *name; ) *to++ = *name++;
    return put + width + 1;
}

/* A name as it is escaped, and the line's end. */
static inline char *name_of(char *put, const char *name) {
    for (; *name; name++)
        if (plain[(unsigned char)*name]) *put++ = *name;
        else if (*name == '\\') *put++ = '\\', *put++ = '\\';
        else put += sprintf(put, "\\x%02x", (unsigned char)*name);
    *put++ = '\n';
    return put;
}

static const char *types[16] = {"NOTYPE", "OBJECT", "FUNC", "SECTION", "FILE", "COMMON", "TLS"};
static const char *bindings[16] = {"LOCAL", "GLOBAL", "WEAK"};
static const char *visibilities[4] = {"DEFAULT", "INTERNAL", "HIDDEN", "PROTECTED"};
static const char *relocations[64] = {
    [0] = "NONE", [1] = "64", [2] = "PC32", [4] = "PLT32", [5] = "COPY", [6] = "GLOB_DAT", [7] = "JUMP_SLOT",
    [8] = "RELATIVE", [10] = "32", [11] = "32S", [12] = "16", [14] = "8", [24] = "PC64"};

/* The name of a number, or the number itself. */
static inline char *named(char *put, const char *name, unsigned long number, int width) {
    return name ? word(put, name, width) : decimal(put, number, width);
}

static inline char *symbol(char *put, int section, unsigned long index, const Elf64_Sym *it, const char *name) {
    put[0] = 'Y', put[1] = ' ';
    put = decimal(decimal(put + 2, section, 5), index, 10);
    put = hex(hex(put, it->st_value, 16), it->st_size, 16);
    put = named(put, types[it->st_info & 15], it->st_info & 15, 7);
    put = named(put, bindings[it->st_info >> 4], it->st_info >> 4, 6);
    put = word(put, visibilities[it->st_other & 3], 9);
    put = named(put, it->st_shndx == SHN_UNDEF ? "UND" : it->st_shndx == SHN_ABS ? "ABS" :
                it->st_shndx == SHN_COMMON ? "COM" : 0, it->st_shndx, 5);
    return name_of(put, name);
}

static inline char *relocation(char *put, int section, const Elf64_Rela *it, const char *name) {
    char sign[12] = "#";
    unsigned kind = ELF64_R_TYPE(it->r_info), index = ELF64_R_SYM(it->r_info);
    const char *type = kind < 64 ? relocations[kind] : 0;
    put[0] = 'R', put[1] = ' ';
    put = hex(decimal(put + 2, section, 5), it->r_offset, 16);
    if (!type) sprintf(sign + 1, "%u", kind);
    put = hex(word(put, type ? type : sign, 10), index, 8);
    *put++ = it->r_addend < 0 ? '-' : '+';
    put = hex(put, it->r_addend < 0 ? -(unsigned long)it->r_addend : (unsigned long)it->r_addend, 16);
    return name_of(put, name);
}

/* Makes the tables that the others use. */
static void make_tables(void) {
    for (int byte = 0; byte < 256; byte++) {
        char digits[3];
        sprintf(digits, "%02x", byte), memcpy(pairs[byte], digits, 2);
        plain[byte] = byte >= ' ' && byte <= '~' && byte != '\\';
    }
}
