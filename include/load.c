/* Loads a file with all settings on and no built-ins, and prints what the program loadlist does,
 * with a refusal's name beside its number: `refused` with number, name, value, name start and name
 * length; or `accepted` with version, entry, keys and moves, and a line for each row, by rising key:
 * key, index, name kind.
 *
 *     tools/staticlib.sh
 *     cc -Iinclude include/load.c target/staticlib/libexports.a -o target/load
 *     target/load FILE
 */
#include <inttypes.h>
#include <stdio.h>

#include "sbpf.h"

#define ROWS 4096

/* One byte more than a file may have, so that a longer one is refused by its number. */
#define TAKEN ((1 << 24) + 1)

int main(int argc, char **argv) {
    static uint8_t file[TAKEN], image[TAKEN], ro[TAKEN];
    static uint32_t keys[ROWS], indices[ROWS], kinds[ROWS], starts[ROWS], lengths[ROWS];
    FILE *in = argc == 2 ? fopen(argv[1], "rb") : NULL;
    if (!in) {
        fprintf(stderr, "usage: load FILE\n");
        return 2;
    }
    size_t len = fread(file, 1, sizeof file, in);
    int failed = ferror(in);
    fclose(in);
    if (failed) {
        fprintf(stderr, "%s cannot be read\n", argv[1]);
        return 2;
    }

    const uint32_t no_builtins[1] = {0}; /* a slice of length 0 has a pointer too */
    uint32_t settings = SBPF_LABELS | SBPF_REJECT_BROKEN | SBPF_COLLISION_CHECK | SBPF_OPTIMIZE |
                        SBPF_V1 | SBPF_V2;
    uint64_t a[SBPF_WORDS];
    if (sbpf_load(file, len, no_builtins, 0, settings, image, len, ro, len, keys, ROWS, indices,
                  ROWS, kinds, ROWS, starts, ROWS, lengths, ROWS, a, SBPF_WORDS) != 0) {
        char name[64];
        sbpf_refusal_name((uint32_t)a[SBPF_NUMBER], (uint8_t *)name, sizeof name);
        printf("refused %" PRIu64 " %s %" PRIu64 " %" PRIu64 " %" PRIu64 "\n", a[SBPF_NUMBER],
               name, a[SBPF_VALUE], a[SBPF_NAME_START], a[SBPF_NAME_LENGTH]);
        return 1;
    }
    printf("accepted %" PRIu64 " %" PRIu64 " %" PRIu64 " %" PRIu64 "\n", a[SBPF_VERSION],
           a[SBPF_ENTRY], a[SBPF_USED], a[SBPF_MOVES]);
    for (uint64_t k = 0; k < a[SBPF_USED]; k++)
        printf("%" PRIu32 " %" PRIu32 " %" PRIu32 "\n", keys[k], indices[k], kinds[k]);
    return 0;
}
