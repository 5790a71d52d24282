/* Prints the parse of a file: its tables, and its sections with their names and places.
 *
 *     tools/staticlib.sh
 *     cc -Iinclude include/example.c target/staticlib/libexports.a -o target/example
 *     target/example FILE
 */
#include <inttypes.h>
#include <stdio.h>
#include <stdlib.h>

#include "sbpf.h"

static uint32_t word32(const uint8_t *at) {
    return at[0] | at[1] << 8 | at[2] << 16 | (uint32_t)at[3] << 24;
}

int main(int argc, char **argv) {
    static uint8_t file[1 << 24];
    FILE *in = argc == 2 ? fopen(argv[1], "rb") : NULL;
    if (!in) {
        fprintf(stderr, "usage: example FILE\n");
        return 2;
    }
    size_t len = fread(file, 1, sizeof file, in);
    fclose(in);

    uint64_t a[SBPF_WORDS];
    if (sbpf_parse(file, len, a, SBPF_WORDS) != 0) {
        char name[64];
        sbpf_refusal_name((uint32_t)a[SBPF_NUMBER], (uint8_t *)name, sizeof name);
        printf("refused %" PRIu64 " %s %" PRIu64 " %" PRIu64 " %" PRIu64 "\n", a[SBPF_NUMBER],
               name, a[SBPF_VALUE], a[SBPF_NAME_START], a[SBPF_NAME_LENGTH]);
        return 1;
    }
    printf("%" PRIu64 " program headers at %" PRIu64 "\n", a[SBPF_PROGRAM_HEADER_COUNT],
           a[SBPF_PROGRAM_HEADERS]);
    printf("%" PRIu64 " dynamic symbols at %" PRIu64 "\n", a[SBPF_DYNAMIC_SYMBOL_COUNT],
           a[SBPF_DYNAMIC_SYMBOLS]);
    printf("%" PRIu64 " dynamic relocations at %" PRIu64 "\n", a[SBPF_DYNAMIC_RELOCATION_COUNT],
           a[SBPF_DYNAMIC_RELOCATIONS]);
    printf("%" PRIu64 " more that bring an addend at %" PRIu64 "\n", a[SBPF_DYNAMIC_RELA_COUNT],
           a[SBPF_DYNAMIC_RELAS]);
    printf("%" PRIu64 " section headers at %" PRIu64 "\n", a[SBPF_SECTION_HEADER_COUNT],
           a[SBPF_SECTION_HEADERS]);
    for (uint32_t i = 0; i < a[SBPF_SECTION_HEADER_COUNT]; i++) {
        uint64_t name[SBPF_WORDS], place[SBPF_WORDS];
        uint32_t sh_name = word32(file + a[SBPF_SECTION_HEADERS] + 64 * i);
        sbpf_section_name(file, len, sh_name, name, SBPF_WORDS);
        uint32_t refused = sbpf_section_place(file, len, i, place, SBPF_WORDS);
        printf("  %-16.*s ", (int)name[SBPF_LENGTH], (const char *)file + name[SBPF_START]);
        if (refused == SBPF_NotASection) {
            printf("no section: its header is of type 0\n");
        } else {
            printf("%" PRIu64 " bytes at %" PRIu64 "\n", place[SBPF_LENGTH], place[SBPF_START]);
        }
    }
    printf("hash of the text entrypoint: %#" PRIx32 "\n",
           sbpf_hash((const uint8_t *)"entrypoint", 10));
    return 0;
}
