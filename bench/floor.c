/* The floor of a listing: the symbols or the relocation entries of a file's section, as `elfsee show` writes
   them, from the mapped file, through one buffer of 64 KiB. Nothing is checked: over another file than a
   good one it reads and writes anywhere. bench/instructions compares elfsee with it.

       floor symbols|relocs FILE */
#include "lines.h"

#include <fcntl.h>
#include <sys/mman.h>
#include <sys/stat.h>
#include <unistd.h>

static char buffer[65536];

int main(int count, char **words) {
    struct stat about;
    int file = open(words[count - 1], O_RDONLY), symbols = words[1][0] == 's';
    fstat(file, &about);
    char *put = buffer;
    const char *bytes = mmap(0, about.st_size, PROT_READ, MAP_PRIVATE, file, 0);
    make_tables();
    const Elf64_Ehdr *header = (const void *)bytes;
    const Elf64_Shdr *sections = (const void *)(bytes + header->e_shoff);
    for (int each = 0; each < header->e_shnum; each++) {
        const Elf64_Shdr *it = &sections[each], *link = &sections[it->sh_link];
        if (symbols ? it->sh_type != SHT_SYMTAB && it->sh_type != SHT_DYNSYM : it->sh_type != SHT_RELA) continue;
        for (unsigned long row = 0; row < it->sh_size / it->sh_entsize; row++) {
            if (put - buffer > 65000) {
                if (write(1, buffer, put - buffer) < 0) return 3;
                put = buffer;
            }
            if (symbols) {
                const Elf64_Sym *symbol_row = (const Elf64_Sym *)(bytes + it->sh_offset) + row;
                put = symbol(put, each, row, symbol_row, bytes + link->sh_offset + symbol_row->st_name);
            } else {
                const Elf64_Rela *entry = (const Elf64_Rela *)(bytes + it->sh_offset) + row;
                unsigned index = ELF64_R_SYM(entry->r_info);
                const Elf64_Sym *of = (const Elf64_Sym *)(bytes + link->sh_offset) + index;
                put = relocation(put, each, entry, index ? bytes + sections[link->sh_link].sh_offset + of->st_name : "");
            }
        }
    }
    return write(1, buffer, put - buffer) < 0 ? 3 : 0;
}
