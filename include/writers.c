/* Loads a file with all settings on and no built-ins, and prints who wrote the bytes of its image: a
 * line for each run of bytes with one writer, its start, its length, and `file`, or `call` or
 * `relocation` with its number; or `refused` with number and name.
 *
 *     tools/staticlib.sh
 *     cc -Iinclude include/writers.c target/staticlib/libexports.a -o target/writers
 *     target/writers FILE
 */
#include <inttypes.h>
#include <stdio.h>

#include "sbpf.h"

#define ROWS 4096

/* One byte more than a file may have, so that a longer one is refused by its number. */
#define TAKEN ((1 << 24) + 1)

static int refused(const uint64_t *a) {
    char name[64];
    sbpf_refusal_name((uint32_t)a[SBPF_NUMBER], (uint8_t *)name, sizeof name);
    printf("refused %" PRIu64 " %s\n", a[SBPF_NUMBER], name);
    return 1;
}

static void print_run(size_t start, size_t end, uint32_t number) {
    printf("%zu %zu ", start, end - start);
    if (number == 0)
        printf("file\n");
    else if (number < SBPF_RELOCATION_CODE)
        printf("call %" PRIu32 "\n", number - 1);
    else
        printf("relocation %" PRIu32 "\n", number - SBPF_RELOCATION_CODE);
}

int main(int argc, char **argv) {
    static uint8_t file[TAKEN], image[TAKEN], ro[TAKEN];
    static uint32_t keys[ROWS], indices[ROWS], kinds[ROWS], starts[ROWS], lengths[ROWS];
    static uint32_t numbers[TAKEN];
    FILE *in = argc == 2 ? fopen(argv[1], "rb") : NULL;
    if (!in) {
        fprintf(stderr, "usage: writers FILE\n");
        return 2;
    }
    size_t len = fread(file, 1, sizeof file, in);
    int failed = ferror(in);
    fclose(in);
    if (failed) {
        fprintf(stderr, "%s cannot be read\n", argv[1]);
        return 2;
    }

    const uint32_t no_builtins[1] = {0}; /* a slice of length 0 has a pointer too */
    uint32_t settings = SBPF_LABELS | SBPF_REJECT_BROKEN | SBPF_COLLISION_CHECK | SBPF_OPTIMIZE |
                        SBPF_V1 | SBPF_V2;
    uint64_t loaded[SBPF_WORDS], a[SBPF_WORDS];
    sbpf_load(file, len, no_builtins, 0, settings, image, len, ro, len, keys, ROWS, indices, ROWS,
              kinds, ROWS, starts, ROWS, lengths, ROWS, loaded, SBPF_WORDS);
    /* a load that is refused answers its refusal here too */
    if (sbpf_who_wrote_all(file, len, loaded, SBPF_WORDS, numbers, len, a, SBPF_WORDS) != 0)
        return refused(a);
    size_t start = 0;
    for (size_t at = 1; at <= len; at++) {
        if (at == len || numbers[at] != numbers[start]) {
            print_run(start, at, numbers[start]);
            start = at;
        }
    }
    return 0;
}
