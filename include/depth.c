/* Loads a file with all settings on and no built-ins, and prints how deep it calls: `chain` and the
 * longest chain of calls from the entry, counted in functions; or `refused` with number, name and value.
 *
 *     tools/staticlib.sh
 *     cc -Iinclude include/depth.c target/staticlib/libexports.a -o target/depth
 *     target/depth FILE [LIMIT]
 */
#include <inttypes.h>
#include <stdio.h>
#include <stdlib.h>

#include "sbpf.h"

#define ROWS 4096

/* One byte more than a file may have, so that a longer one is refused by its number. */
#define TAKEN ((1 << 24) + 1)

int main(int argc, char **argv) {
    static uint8_t file[TAKEN], image[TAKEN], ro[TAKEN];
    static uint32_t keys[ROWS], indices[ROWS], kinds[ROWS], starts[ROWS], lengths[ROWS];
    static uint32_t work[ROWS];
    FILE *in = argc == 2 || argc == 3 ? fopen(argv[1], "rb") : NULL;
    if (!in) {
        fprintf(stderr, "usage: depth FILE [LIMIT]\n");
        return 2;
    }
    size_t len = fread(file, 1, sizeof file, in);
    int failed = ferror(in);
    fclose(in);
    if (failed) {
        fprintf(stderr, "%s cannot be read\n", argv[1]);
        return 2;
    }

    const uint32_t no_builtins[1] = {0}; /* a slice of length 0 has a pointer too */
    uint32_t settings = SBPF_LABELS | SBPF_REJECT_BROKEN | SBPF_COLLISION_CHECK | SBPF_OPTIMIZE |
                        SBPF_V1 | SBPF_V2;
    uint32_t limit = argc == 3 ? (uint32_t)strtoul(argv[2], NULL, 10) : 64;
    uint64_t a[SBPF_WORDS];
    if (sbpf_load_call_depth(file, len, no_builtins, 0, settings, image, len, ro, len, keys, ROWS,
                             indices, ROWS, kinds, ROWS, starts, ROWS, lengths, ROWS, work, ROWS,
                             limit, a, SBPF_WORDS) != 0) {
        char name[64];
        sbpf_refusal_name((uint32_t)a[SBPF_NUMBER], (uint8_t *)name, sizeof name);
        printf("refused %" PRIu64 " %s %" PRIu64 "\n", a[SBPF_NUMBER], name, a[SBPF_VALUE]);
        return 1;
    }
    printf("chain %" PRIu64 "\n", a[SBPF_LOAD_DEPTH]);
    return 0;
}
