/* What a program in C over libelf does for the same lines as `elfsee show`, for bench/jobs:

       peers symbols|dynamic|relocs lines|printf FILE    the symbols, those of dynamic tables, or the entries
       peers name NAME FILE                              the symbols with this name
       peers headers DIRECTORY                           of each file below it the headers and symbols, read

   `lines` writes by the functions of the floor (bench/lines.h) through one buffer, `printf` by printf. libelf checks
   offsets and that a name ends; the file is one that `elfsee check` accepts. Built with -lelf. */
#define _GNU_SOURCE
#include "lines.h"

#include <fcntl.h>
#include <ftw.h>
#include <gelf.h>
#include <unistd.h>

enum { ROOM = 65536, LONGEST_LINE = 20000 };

static char buffer[ROOM + LONGEST_LINE], *put = buffer;
static int by_printf;
static const char *wanted; /* the name, or null for all */
static unsigned long sum;

static void flush(void) {
    if (write(1, buffer, put - buffer) < 0) _exit(3);
    put = buffer;
}

/* The name of a number by printf, as a word of this width or in decimal. */
static void named_printed(const char *name, unsigned number, int width) {
    if (name) printf("%-*s ", width, name);
    else printf("%*u ", width, number);
}

static void symbol_printed(int section, unsigned long index, const GElf_Sym *it, const char *name) {
    const char *place = it->st_shndx == SHN_UNDEF ? "UND" : it->st_shndx == SHN_ABS ? "ABS" :
                        it->st_shndx == SHN_COMMON ? "COM" : 0;
    printf("Y %5d %10lu %016lx %016lx ", section, index, it->st_value, it->st_size);
    named_printed(types[it->st_info & 15], it->st_info & 15, 7);
    named_printed(bindings[it->st_info >> 4], it->st_info >> 4, 6);
    printf("%-9s ", visibilities[it->st_other & 3]);
    named_printed(place, it->st_shndx, 5);
    puts(name);
}

static void relocation_printed(int section, const GElf_Rela *it, const char *name) {
    char sign[12] = "#";
    unsigned kind = ELF64_R_TYPE(it->r_info);
    const char *type = kind < 64 ? relocations[kind] : 0;
    unsigned long addend = it->r_addend < 0 ? -(unsigned long)it->r_addend : (unsigned long)it->r_addend;
    if (!type) sprintf(sign + 1, "%u", kind);
    printf("R %5d %016lx %-10s %08lx %c%016lx %s\n", section, it->r_offset, type ? type : sign,
           (unsigned long)ELF64_R_SYM(it->r_info), it->r_addend < 0 ? '-' : '+', addend, name);
}

static void symbols(Elf *elf, Elf_Scn *section, const GElf_Shdr *header, int quiet) {
    Elf_Data *data = elf_getdata(section, 0);
    int count = (int)(header->sh_size / header->sh_entsize), index = (int)elf_ndxscn(section);
    GElf_Sym row;
    for (int each = 0; each < count && gelf_getsym(data, each, &row); each++) {
        const char *name = elf_strptr(elf, header->sh_link, row.st_name);
        if (!name) _exit(4);
        if (quiet) sum += row.st_value + strlen(name);
        else if (wanted && strcmp(name, wanted) != 0) continue;
        else if (by_printf) symbol_printed(index, each, &row, name);
        else put = symbol(put, index, each, &row, name);
        if (put - buffer > ROOM) flush();
    }
}

static void entries(Elf *elf, Elf_Scn *section, const GElf_Shdr *header) {
    Elf_Data *data = elf_getdata(section, 0), *symbols_of;
    int count = (int)(header->sh_size / header->sh_entsize), index = (int)elf_ndxscn(section);
    Elf_Scn *linked = elf_getscn(elf, header->sh_link);
    GElf_Shdr link = {0};
    GElf_Rela row;
    GElf_Sym of;
    if (!linked || !gelf_getshdr(linked, &link)) _exit(4);
    symbols_of = elf_getdata(linked, 0);
    for (int each = 0; each < count && gelf_getrela(data, each, &row); each++) {
        const char *name = "";
        if (GELF_R_SYM(row.r_info)) {
            if (!gelf_getsym(symbols_of, (int)GELF_R_SYM(row.r_info), &of)) _exit(4);
            name = elf_strptr(elf, link.sh_link, of.st_name);
            if (!name) _exit(4);
        }
        if (by_printf) relocation_printed(index, &row, name);
        else put = relocation(put, index, &row, name);
        if (put - buffer > ROOM) flush();
    }
}

/* Goes over the sections of a file: of `what` the first letter counts. */
static int each_section(const char *path, const char *what, int quiet) {
    int file = open(path, O_RDONLY);
    Elf *elf = file < 0 ? 0 : elf_begin(file, ELF_C_READ_MMAP, 0);
    Elf_Scn *section = 0;
    GElf_Shdr header;
    if (!elf || elf_kind(elf) != ELF_K_ELF) return 1;
    while ((section = elf_nextscn(elf, section))) {
        if (!gelf_getshdr(section, &header)) return 1;
        int dynamic = header.sh_type == SHT_DYNSYM, all = *what != 'd' && header.sh_type == SHT_SYMTAB;
        if (*what != 'r' && (dynamic || all)) symbols(elf, section, &header, quiet);
        if ((*what == 'r' || quiet) && header.sh_type == SHT_RELA) {
            if (quiet) sum += header.sh_size;
            else entries(elf, section, &header);
        }
    }
    elf_end(elf);
    close(file);
    return 0;
}

static int one_of_many(const char *path, const struct stat *about, int flag, struct FTW *at) {
    (void)at;
    if (flag == FTW_F && S_ISREG(about->st_mode)) {
        int status = each_section(path, "headers", 1);
        printf("%s %s\n", status ? "no-elf" : "ok", path);
    }
    return 0;
}

int main(int count, char **words) {
    if (count < 3) return 2;
    elf_version(EV_CURRENT);
    make_tables();
    if (*words[1] == 'h') return nftw(words[2], one_of_many, 64, FTW_PHYS) != 0;
    if (count < 4) return 2;
    if (*words[1] == 'n') wanted = words[2];
    else by_printf = *words[2] == 'p';
    if (each_section(words[3], words[1], 0)) return 1;
    flush();
    return fflush(stdout) != 0;
}
