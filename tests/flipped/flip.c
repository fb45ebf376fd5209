/*
 * Copies an archive with one bit of its machine code or constants flipped, and says which: flip ARCHIVE OUT [--seed S]
 * [--number N]. Bytes that the linker fills in are left alone, since a flip there would be lost.
 */
#include <elf.h>
#include <stdio.h>
#include <stdlib.h>
#include <string.h>

#include "drawn.h"
#include "options.h"

enum { MOST_BYTES = 1 << 20 };

static uint8_t bytes[MOST_BYTES];
static size_t size;
static const uint8_t *object; /* the first member of the archive that is an ELF object */

static void end_with(const char *why)
{
    fprintf(stderr, "flip: %s\n", why);
    exit(2);
}

static void read_archive(const char *name)
{
    FILE *file = fopen(name, "rb");
    if (file == NULL)
        end_with("the archive cannot be opened");
    size = fread(bytes, 1, sizeof bytes, file);
    fclose(file);
    if (size == sizeof bytes)
        end_with("the archive is too long");
    for (size_t at = 0; at + sizeof(Elf64_Ehdr) <= size && object == NULL; at++)
        if (memcmp(bytes + at, ELFMAG, SELFMAG) == 0)
            object = bytes + at;
    if (object == NULL)
        end_with("there is no object in the archive");
}

static Elf64_Shdr section(int i)
{
    Elf64_Ehdr header;
    Elf64_Shdr found;
    memcpy(&header, object, sizeof header);
    if (i < 0 || i >= header.e_shnum)
        end_with("there is no such section");
    memcpy(&found, object + header.e_shoff + (size_t)i * header.e_shentsize, sizeof found);
    return found;
}

static int sections(void)
{
    Elf64_Ehdr header;
    memcpy(&header, object, sizeof header);
    return header.e_shnum;
}

static const char *name_of(int i)
{
    Elf64_Ehdr header;
    memcpy(&header, object, sizeof header);
    return (const char *)object + section(header.e_shstrndx).sh_offset + section(i).sh_name;
}

/* Code and constants: what is loaded and not written. */
static int is_program(int i)
{
    const Elf64_Shdr s = section(i);
    return s.sh_type == SHT_PROGBITS && (s.sh_flags & SHF_ALLOC) != 0 && (s.sh_flags & SHF_WRITE) == 0 &&
           strncmp(name_of(i), ".eh_frame", 9) != 0;
}

/* Whether the linker fills in this byte of a section: four bytes from the place of each relocation. */
static int is_filled_in(int i, size_t at)
{
    for (int r = 0; r < sections(); r++) {
        const Elf64_Shdr s = section(r);
        if (s.sh_type != SHT_RELA || (int)s.sh_info != i)
            continue;
        for (size_t entry = 0; entry < s.sh_size; entry += sizeof(Elf64_Rela)) {
            Elf64_Rela relocation;
            memcpy(&relocation, object + s.sh_offset + entry, sizeof relocation);
            if (at >= relocation.r_offset && at < relocation.r_offset + 4)
                return 1;
        }
    }
    return 0;
}

/* The byte of that number among those that may be flipped, or how many there are where it is beyond them. */
static size_t find(size_t number, int *which, size_t *at)
{
    size_t passed = 0;
    for (*which = 0; *which < sections(); ++*which)
        for (*at = 0; is_program(*which) && *at < section(*which).sh_size; ++*at)
            if (!is_filled_in(*which, *at) && passed++ == number)
                return number;
    return passed;
}

int main(int count, char **words)
{
    struct option options[] = {{"--seed", 1, 0}, {"--number", 0, 0}};
    int which;
    size_t at;
    if (count < 3)
        end_with("usage: flip ARCHIVE OUT [--seed NUMBER] [--number NUMBER]");
    read_options(count - 2, words + 2, options, 2);
    read_archive(words[1]);
    uint64_t state = options[0].number, apart = drawn(&state) + options[1].number;
    const size_t all = find(SIZE_MAX, &which, &at), chosen = drawn(&apart) % all;
    const unsigned bit = (unsigned)(drawn(&apart) % 8);
    find(chosen, &which, &at);
    bytes[(size_t)(object - bytes) + section(which).sh_offset + at] ^= (uint8_t)(1u << bit);
    printf("%s, byte %zu, bit %u; one of %zu bytes\n", name_of(which), at, bit, all);
    FILE *file = fopen(words[2], "wb");
    if (file == NULL || fwrite(bytes, 1, size, file) != size || fclose(file) != 0)
        end_with("the copy cannot be written");
    return 0;
}
