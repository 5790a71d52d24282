/* Finds a dynamic symbol of a file by its name, and prints `symbol` with its number, or `none`, or
 * `refused` with number and name.
 *
 *     tools/staticlib.sh
 *     cc -Iinclude include/find.c target/staticlib/libexports.a -o target/find
 *     target/find FILE NAME
 */
#include <inttypes.h>
#include <stdio.h>
#include <string.h>

#include "sbpf.h"

/* As many bytes as a file may have. */
#define TAKEN (1 << 24)

int main(int argc, char **argv) {
    static uint8_t file[TAKEN];
    FILE *in = argc == 3 ? fopen(argv[1], "rb") : NULL;
    if (!in) {
        fprintf(stderr, "usage: find FILE NAME\n");
        return 2;
    }
    size_t len = fread(file, 1, sizeof file, in);
    int failed = ferror(in) || !feof(in);
    fclose(in);
    if (failed) {
        fprintf(stderr, "%s cannot be read, or is too long\n", argv[1]);
        return 2;
    }

    uint64_t a[SBPF_WORDS];
    if (sbpf_find_symbol(file, len, (const uint8_t *)argv[2], strlen(argv[2]), a, SBPF_WORDS) != 0) {
        char name[64];
        sbpf_refusal_name((uint32_t)a[SBPF_NUMBER], (uint8_t *)name, sizeof name);
        printf("refused %" PRIu64 " %s\n", a[SBPF_NUMBER], name);
        return 1;
    }
    if (a[SBPF_FOUND])
        printf("symbol %" PRIu64 "\n", a[SBPF_SYMBOL]);
    else
        printf("none\n");
    return 0;
}
