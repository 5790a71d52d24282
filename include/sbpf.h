/* The proved functions of crates/exports, for C. Build the archive with
 * `tools/staticlib.sh` and link target/staticlib/libexports.a (x86-64 Linux).
 *
 * A slice is a pointer and a length in elements; the pointer is not null, also where the length
 * is 0, and lent slices do not overlap. The functions demand nothing else, always return, and
 * write nothing but the slices that are lent to them without `const`: a load its image, its
 * read-only buffer, its five columns and its answer, sbpf_who_wrote_all its numbers and its answer,
 * the two of call depth their `work` besides, every other function its answer or its name alone. What they answer is said, for every input, in
 * crates/exports/specs.
 *
 * An answer is SBPF_WORDS words. The first is a number, which is also the result: 0, or why
 * there is nothing. A refusal has its value, and the start and the length of the name that it
 * speaks of, in the next three words. Words that are not used are 0. A lent answer of fewer
 * words takes the first of them; one of more has zeros behind them. A lookup needs no more than
 * SBPF_ROW_WORDS.
 */
#ifndef SBPF_H
#define SBPF_H

#include <stddef.h>
#include <stdint.h>

#ifdef __cplusplus
extern "C" {
#endif

#define SBPF_WORDS 24
#define SBPF_ROW_WORDS 9

/* Words of every answer that can be a refusal. */
enum { SBPF_NUMBER, SBPF_VALUE, SBPF_NAME_START, SBPF_NAME_LENGTH };

/* The numbers of the refusals, with what their value and their name are; unused ones are 0. */
enum {
    SBPF_InvalidFileHeader = 1,
    SBPF_InvalidProgramHeader = 2,
    SBPF_InvalidSectionHeader = 3,
    SBPF_StringTooLong = 4, /* its name: where it starts, and how many bytes were looked at */
    SBPF_OutOfBounds = 5,
    SBPF_InvalidSize = 6,
    SBPF_Overlap = 7,
    SBPF_SectionNotInOrder = 8,
    SBPF_NoSectionNameStringTable = 9,
    SBPF_InvalidDynamicSectionTable = 10,
    SBPF_InvalidAlignment = 11,
    SBPF_NoStringTable = 12,
    SBPF_NoDynamicStringTable = 13,
    SBPF_EntrypointOutOfBounds = 20,
    SBPF_InvalidEntrypoint = 21,
    SBPF_UnresolvedSymbol = 22, /* value: the relocation's file offset; its name: the symbol's */
    SBPF_RelativeJumpOutOfBounds = 23, /* value: the slot of the call */
    SBPF_SymbolHashCollision = 24, /* value: the key */
    SBPF_WrongAbi = 25,
    SBPF_WrongMachine = 26,
    SBPF_NotOneTextSection = 27,
    SBPF_WritableSectionNotSupported = 28, /* its name: the section's */
    SBPF_InvalidVirtualAddress = 29,
    SBPF_UnknownRelocation = 30, /* value: the relocation's type */
    SBPF_WrongType = 31,
    SBPF_UnknownSymbol = 32, /* value: the symbol's index, or the st_name that cannot be read */
    SBPF_ValueOutOfBounds = 33,
    SBPF_UnsupportedSBPFVersion = 34,
    SBPF_FileTooLong = 40,
    SBPF_BufferShort = 41,
    SBPF_BuiltinsNotAscending = 42,
    SBPF_TableFull = 43, /* value: the rows of the table */
    SBPF_TextOutsideReadOnly = 44,
    SBPF_NoSuchIndex = 45,
    SBPF_NotASection = 46,
    SBPF_AddendNegative = 47, /* of a relocation of type 1 or 8 */
    SBPF_BadHashTable = 48, /* of sbpf_find_symbol alone */
    SBPF_StringUnterminated = 49, /* as 4, where the section ends before the limit; its name: as 4's */
    SBPF_RecursiveCall = 50, /* of call depth alone; value: the function's index */
    SBPF_TooDeep = 51, /* of call depth alone; value: the longest chain */
};

/* Words of an accepted parse. A header that was found by name is given by its offset in the
 * file, 0 where there is none. */
enum {
    SBPF_PROGRAM_HEADERS = 4,
    SBPF_PROGRAM_HEADER_COUNT,
    SBPF_SECTION_HEADERS,
    SBPF_SECTION_HEADER_COUNT,
    SBPF_SHSTRTAB_HEADER,
    SBPF_SYMTAB_HEADER,
    SBPF_STRTAB_HEADER,
    SBPF_DYNSTR_HEADER,
    SBPF_DYNAMIC_RELOCATIONS,
    SBPF_DYNAMIC_RELOCATION_COUNT,
    SBPF_DYNAMIC_SYMBOLS,
    SBPF_DYNAMIC_SYMBOL_COUNT,
    SBPF_DYNAMIC_RELAS, /* the relocations that bring an addend */
    SBPF_DYNAMIC_RELA_COUNT,
    SBPF_HASH_TABLE /* the address under tag 4, 0 where there is none; a parse does not look there */
};

/* Words of an accepted load. The read-only bytes stand in the image from SBPF_RO_START on, or,
 * where they were copied (SBPF_RO_COPIED is 1), at the front of the read-only buffer; the first of
 * them has the address 0x100000000 + SBPF_RO_OFFSET. SBPF_TEXT_START is a place in the file. */
enum {
    SBPF_VERSION = 4,
    SBPF_ENTRY,
    SBPF_USED,
    SBPF_MOVES,
    SBPF_RO_COPIED,
    SBPF_RO_OFFSET,
    SBPF_RO_START,
    SBPF_RO_LENGTH,
    SBPF_TEXT_ADDR,
    SBPF_TEXT_START,
    SBPF_TEXT_LENGTH
};

/* Words of who wrote a byte: a kind of writer, below, and the number of the call's slot or of the
 * relocation, 0 for the file. Behind the words of a load they stand further on. */
enum { SBPF_WRITER = 4, SBPF_WRITER_NUMBER };
enum { SBPF_LOAD_WRITER = 15, SBPF_LOAD_WRITER_NUMBER };

/* Kinds of writers. Slots are the whole 8-byte pieces of the text, counted from 0. Relocations are
 * counted from 0 in the order in which they are applied, those that bring an addend behind all the
 * others. */
enum { SBPF_BY_FILE, SBPF_BY_CALL, SBPF_BY_RELOCATION };

/* Word of how deep a profile calls. Behind the words of a load it stands further on. */
enum { SBPF_DEPTH = 4 };
enum { SBPF_LOAD_DEPTH = 15 };

/* Settings of a load, by bits; others are not looked at. */
enum {
    SBPF_LABELS = 1,
    SBPF_REJECT_BROKEN = 2,
    SBPF_COLLISION_CHECK = 4,
    SBPF_OPTIMIZE = 8,
    SBPF_V1 = 16,
    SBPF_V2 = 32
};

/* Kinds of a row's name: empty, a part of the file, the text entrypoint, made from the index. */
enum { SBPF_KIND_EMPTY, SBPF_KIND_IN_FILE, SBPF_KIND_ENTRYPOINT, SBPF_KIND_FROM_INDEX };

/* Words of a place in the file, and of a table: where it starts, and its bytes or entries. Words
 * of the text's place in the lent bytes, too. */
enum { SBPF_START = 4, SBPF_LENGTH };

/* Words of a lookup: whether a row was found, 1 or 0, and the row's, 0 where none was. */
enum { SBPF_FOUND = 4, SBPF_ROW_INDEX, SBPF_ROW_KIND, SBPF_ROW_START, SBPF_ROW_LENGTH };

/* Words of a symbol by its name: SBPF_FOUND, and its number among the dynamic symbols. */
enum { SBPF_SYMBOL = 5 };

/* MurmurHash3, x86 32-bit, seed 0. */
uint32_t sbpf_hash(const uint8_t *name, size_t name_len);

/* The name of the refusal with a number, as the constants above have it behind SBPF_: its bytes, as
 * many as there is room for, and zeros behind them, so that 64 bytes hold each as a text of C. The
 * result is the whole name's length, 0 where no refusal has the number. */
uint32_t sbpf_refusal_name(uint32_t number, uint8_t *name, size_t name_len);

/* Where things stand in an ELF-64 file. */
uint32_t sbpf_parse(const uint8_t *file, size_t file_len, uint64_t *answer, size_t answer_len);

/* These parse first; a file that is refused answers its refusal. */

/* The contents of a section; 45 where there is none of that index, 46 where its header is of
 * type 0. */
uint32_t sbpf_section_place(const uint8_t *file, size_t file_len, uint32_t index,
                            uint64_t *answer, size_t answer_len);

/* Names, by string offset. */
uint32_t sbpf_section_name(const uint8_t *file, size_t file_len, uint32_t sh_name,
                           uint64_t *answer, size_t answer_len);
uint32_t sbpf_symbol_name(const uint8_t *file, size_t file_len, uint32_t st_name,
                          uint64_t *answer, size_t answer_len);
uint32_t sbpf_dynamic_symbol_name(const uint8_t *file, size_t file_len, uint32_t st_name,
                                  uint64_t *answer, size_t answer_len);

/* The symbols of .symtab: no entries where there is no such section. */
uint32_t sbpf_symbol_table(const uint8_t *file, size_t file_len, uint64_t *answer,
                           size_t answer_len);

/* The dynamic symbol with a name, through the file's hash table (tag 4): the first on the name's
 * chain that carries it. The result is 0, also where there is none: SBPF_FOUND says it. 48 where the
 * table is absent or cannot be used. */
uint32_t sbpf_find_symbol(const uint8_t *file, size_t file_len, const uint8_t *name,
                          size_t name_len, uint64_t *answer, size_t answer_len);

/* The first of the used rows with the key, whatever the columns hold; at most the rows lent
 * count, that is as many as the shortest column has. The result is 0, also where there is none:
 * SBPF_FOUND says it. */
uint32_t sbpf_lookup(const uint32_t *keys, size_t keys_len, const uint32_t *indices,
                     size_t indices_len, const uint32_t *kinds, size_t kinds_len,
                     const uint32_t *starts, size_t starts_len, const uint32_t *lengths,
                     size_t lengths_len, uint64_t used, uint32_t key, uint64_t *answer,
                     size_t answer_len);

/* The same by a binary search over the used keys: the row that it comes to, if it has the key. Use
 * this one on the columns and the SBPF_USED rows that a load has left, which ascend by key: there
 * both answer the same for every key, and this one in few steps. Use sbpf_lookup on a table of
 * unknown origin: where the rows do not ascend, this one may miss a row that is there. */
uint32_t sbpf_lookup_ascending(const uint32_t *keys, size_t keys_len, const uint32_t *indices,
                               size_t indices_len, const uint32_t *kinds, size_t kinds_len,
                               const uint32_t *starts, size_t starts_len,
                               const uint32_t *lengths, size_t lengths_len, uint64_t used,
                               uint32_t key, uint64_t *answer, size_t answer_len);

/* The index of that row, by the columns of keys and indices alone, as many rows as the shorter has;
 * SBPF_NO_INDEX where there is none. On what a load has left it is the SBPF_ROW_INDEX of
 * sbpf_lookup_ascending, and the quickest way from a call's key to its function. */
#define SBPF_NO_INDEX UINT64_MAX
uint64_t sbpf_index_ascending(const uint32_t *keys, size_t keys_len, const uint32_t *indices,
                              size_t indices_len, uint64_t used, uint32_t key);

/* The number of that row, counted from 0, by the column of keys alone, as many rows as it has;
 * SBPF_NO_ROW where there is none. Use this one where more than the index is wanted of a row that a
 * load has left: the row's index, and its name's kind, start and length, stand in the caller's own
 * columns at that number, and nothing is copied. A number that is given is below `used` and below
 * the column's length. On a table of unknown origin use sbpf_lookup, as above. */
#define SBPF_NO_ROW SBPF_NO_INDEX
uint64_t sbpf_row_ascending(const uint32_t *keys, size_t keys_len, uint64_t used, uint32_t key);

/* Loads a file of at most 16,777,216 bytes (else 40). Lent are: the image and the read-only
 * buffer, each at least as long as the file (else 41); and the table, five columns with as many
 * rows as the shortest has (43 where the functions do not fit). The built-ins are keys that
 * strictly ascend (else 42). What the lent slices hold before does not matter.
 *
 * Afterwards they hold their whole content, or, where the load is refused, only zeros. Accepted:
 * the image is the file, relocated; the read-only buffer holds the copied bytes, if they were
 * copied; the columns hold SBPF_USED rows, ascending by key. All behind that is zero. */
uint32_t sbpf_load(const uint8_t *file, size_t file_len, const uint32_t *builtins,
                   size_t builtins_len, uint32_t settings, uint8_t *image, size_t image_len,
                   uint8_t *ro, size_t ro_len, uint32_t *keys, size_t keys_len,
                   uint32_t *indices, size_t indices_len, uint32_t *kinds, size_t kinds_len,
                   uint32_t *starts, size_t starts_len, uint32_t *lengths, size_t lengths_len,
                   uint64_t *answer, size_t answer_len);

/* Who wrote a byte of the image that a load of this file has made: the file, the call in a slot or a
 * relocation, whichever wrote it last, even where the value came out the same. A byte whose writer is
 * the file has the file's value. `offset` is one in the image; 45 where it is not below the file's
 * length. `loaded` are the words that sbpf_load gave for this file, at least up to SBPF_TEXT_LENGTH;
 * the image is not looked at. Where they are a refusal, the answer is that refusal.
 *
 * Use this one for a few bytes: it parses the file each time and goes through all relocations. Use
 * sbpf_who_wrote_all for a whole image.
 *
 * Of words that no load of this file gave nothing is demanded either. In this order it is then: 40 for
 * a file of more than 16,777,216 bytes; 33 where the text is not inside the file; the refusal of a
 * parse, as a load has it (5 is 33); 2 in version 2 with ten or more program headers; else what calls
 * and relocations name with the text there. Words that are missing count as 0. */
uint32_t sbpf_who_wrote(const uint8_t *file, size_t file_len, const uint64_t *loaded,
                        size_t loaded_len, uint64_t offset, uint64_t *answer, size_t answer_len);

/* The same of every byte, in one pass: the number at a byte's offset is 0 for the file, i + 1 for the
 * call in slot i, SBPF_RELOCATION_CODE + j for relocation j. Behind the file's bytes they are zeros.
 * What the numbers hold before does not matter. 41, after the refusals above, where they are fewer
 * than the file's bytes; 41 may also be the load's own. A refusal leaves only zeros. */
#define SBPF_RELOCATION_CODE 0x80000000u
uint32_t sbpf_who_wrote_all(const uint8_t *file, size_t file_len, const uint64_t *loaded,
                            size_t loaded_len, uint32_t *numbers, size_t numbers_len,
                            uint64_t *answer, size_t answer_len);

/* A load and the question at once: all that sbpf_load does, and behind the words of its answer
 * SBPF_LOAD_WRITER and SBPF_LOAD_WRITER_NUMBER. A load that is refused answers its refusal and leaves
 * zeros, as sbpf_load. 45 comes only after an accepted load and leaves its outputs as they are: image,
 * read-only buffer and columns hold the load's content, and behind the number 45 stand the words of
 * the accepted load; the writer's two are 0. To lend such words to the two functions above, set
 * SBPF_NUMBER to 0 first: they take words with another number for a refusal. */
uint32_t sbpf_load_who_wrote(const uint8_t *file, size_t file_len, const uint32_t *builtins,
                             size_t builtins_len, uint32_t settings, uint8_t *image,
                             size_t image_len, uint8_t *ro, size_t ro_len, uint32_t *keys,
                             size_t keys_len, uint32_t *indices, size_t indices_len,
                             uint32_t *kinds, size_t kinds_len, uint32_t *starts,
                             size_t starts_len, uint32_t *lengths, size_t lengths_len,
                             uint64_t offset, uint64_t *answer, size_t answer_len);

/* How deep the profile calls that a load answered for: the longest chain of calls that begins at the
 * entry, counted in functions, so that an entry that calls nothing is 1. A function has an index of a
 * row; it owns the slots from there up to the next larger index of a row, or the text's end. It calls
 * a function, perhaps itself, where one of its slots in the image has the opcode 0x85, in version 2 a
 * source that is not 0, and as its immediate a key that finds a row with that function's index.
 *
 * Lent are the image, the columns and the words that a load has left, those at least up to
 * SBPF_TEXT_LENGTH; and `work`, with a number for each row lent, used or not. What `work` holds before
 * does not matter, and what it holds afterwards is left free. `limit` is from 1 to 64; any other is
 * read as 64. In this order: a load's refusal is given again; 41 where `work` has fewer numbers than
 * the shortest column; 50 where a function that the entry reaches reaches itself, the value is the
 * smallest such index; 51 where the longest chain passes the limit, the value is that chain.
 *
 * The time grows with the square of the functions, of which a table has no more than rows: slowly, to
 * about ten loads for 5,000 of them, or, where a circle stands behind a long chain, to thousands of
 * loads. README has times.
 *
 * Of what no load has left nothing is demanded either. Behind 41 comes 33 then, where more rows are
 * used than lent, or 2^30 and more, where the text is longer than 16,777,216 bytes or does not stand in
 * the image, and where no used row has the entry's index; else keys find their rows as in
 * sbpf_row_ascending. Words that are missing count as 0; of the entry the lower half counts. */
uint32_t sbpf_call_depth(const uint8_t *image, size_t image_len, const uint32_t *keys,
                         size_t keys_len, const uint32_t *indices, size_t indices_len,
                         const uint32_t *kinds, size_t kinds_len, const uint32_t *starts,
                         size_t starts_len, const uint32_t *lengths, size_t lengths_len,
                         const uint64_t *loaded, size_t loaded_len, uint32_t *work,
                         size_t work_len, uint32_t limit, uint64_t *answer, size_t answer_len);

/* A load and the question at once: all that sbpf_load does, and behind the words of its answer
 * SBPF_LOAD_DEPTH. A load that is refused answers its refusal and leaves zeros, as sbpf_load. The
 * question's own 41, 50 and 51 come only after an accepted load and leave its outputs as they are:
 * image, read-only buffer and columns hold the load's content, and behind the number and the value
 * stand the words of the accepted load; SBPF_LOAD_DEPTH is 0. So 41 may be the load's own or the
 * question's: behind the question's SBPF_VERSION is 1 or 2, behind the load's it is 0. To lend such
 * words to the other functions, set SBPF_NUMBER to 0 first: they take words with another number for
 * a refusal. */
uint32_t sbpf_load_call_depth(const uint8_t *file, size_t file_len, const uint32_t *builtins,
                              size_t builtins_len, uint32_t settings, uint8_t *image,
                              size_t image_len, uint8_t *ro, size_t ro_len, uint32_t *keys,
                              size_t keys_len, uint32_t *indices, size_t indices_len,
                              uint32_t *kinds, size_t kinds_len, uint32_t *starts,
                              size_t starts_len, uint32_t *lengths, size_t lengths_len,
                              uint32_t *work, size_t work_len, uint32_t limit,
                              uint64_t *answer, size_t answer_len);

/* Where the text stands among the read-only bytes of a load, or 44. `lent` is the length of the
 * image, or, where the bytes were copied, of the read-only buffer, and the place is one in it; the
 * others are words of the load's answer. */
uint32_t sbpf_text_place(uint64_t lent, uint64_t ro_offset, uint64_t ro_start,
                         uint64_t ro_length, uint64_t text_addr, uint64_t text_length,
                         uint64_t *answer, size_t answer_len);

#ifdef __cplusplus
}
#endif

#endif
