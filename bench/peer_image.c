/* Writes a LOAD segment as a loader leaves it, for bench/jobs:

       peer_image FILE SEGMENT BASE

   It reads the segment, the symbols and the entries into memory, stores what the entries of R_X86_64_RELATIVE and of
   local symbols store, and leaves the places of the others as they are in the file. Nothing of the file is checked. */
#include <elf.h>
#include <fcntl.h>
#include <stdint.h>
#include <stdio.h>
#include <stdlib.h>
#include <string.h>
#include <unistd.h>

static int file;

static void fill(char *bytes, uint64_t at, uint64_t size) {
    for (uint64_t done = 0; done < size;) {
        ssize_t count = pread(file, bytes + done, size - done, at + done);
        if (count <= 0) exit(3);
        done += count;
    }
}

static void *read_at(uint64_t at, uint64_t size) {
    char *bytes = malloc(size + 1);
    if (!bytes) exit(3);
    fill(bytes, at, size);
    return bytes;
}

int main(int count, char **words) {
    if (count < 4 || (file = open(words[1], O_RDONLY)) < 0) return 3;
    uint64_t base = strtoull(words[3], 0, 0), values[64] = {0};
    Elf64_Ehdr *header = read_at(0, sizeof *header);
    Elf64_Phdr *headers = read_at(header->e_phoff, header->e_phnum * sizeof *headers);
    Elf64_Phdr *segment = headers + atoi(words[2]), *dynamic = 0, *each = headers, *end = headers + header->e_phnum;
    for (; each < end; each++) if (each->p_type == PT_DYNAMIC) dynamic = each;
    if (!dynamic || segment >= end) return 1;
    for (Elf64_Dyn *row = read_at(dynamic->p_offset, dynamic->p_filesz); row->d_tag; row++)
        if (row->d_tag > 0 && row->d_tag < 64) values[row->d_tag] = row->d_un.d_val;
    char *memory = calloc(1, segment->p_memsz);
    if (!memory) return 3;
    fill(memory, segment->p_offset, segment->p_filesz);
    /* Tables are in the first segment, at their addresses. */
    Elf64_Sym *symbols = read_at(values[DT_SYMTAB], values[DT_STRTAB] - values[DT_SYMTAB]);
    uint64_t tables[2][2] = {{values[DT_RELA], values[DT_RELASZ]}, {values[DT_JMPREL], values[DT_PLTRELSZ]}};
    for (int table = 0; table < 2; table++) {
        Elf64_Rela *entry = read_at(tables[table][0], tables[table][1]);
        for (Elf64_Rela *last = entry + tables[table][1] / sizeof *entry; entry < last; entry++) {
            uint64_t place = entry->r_offset - segment->p_vaddr, value = base + entry->r_addend;
            Elf64_Sym *symbol = symbols + ELF64_R_SYM(entry->r_info);
            int type = ELF64_R_TYPE(entry->r_info);
            int local = ELF64_ST_BIND(symbol->st_info) == STB_LOCAL && symbol->st_shndx != SHN_UNDEF;
            if (type != R_X86_64_RELATIVE) {
                if (!local || (type != R_X86_64_64 && type != R_X86_64_GLOB_DAT)) continue;
                value = base + symbol->st_value + (type == R_X86_64_64 ? entry->r_addend : 0);
            }
            if (place <= segment->p_memsz - sizeof value) memcpy(memory + place, &value, sizeof value);
        }
    }
    return fwrite(memory, 1, segment->p_memsz, stdout) != segment->p_memsz;
}
