/* Tubrambutan as a library in C: reads Python requirements and merges them into one table.
 *
 * Each call is one export of crates/pep_c, which is proved to meet its contract (docs/PROVED.md). Its callers
 * aren't proved. Link dist/libtubrambutan.so, or libpep_c.a ("rt lib" in crates/pep_c makes it in out/) with c/liblibc_c.a of the kit. The allocator is
 * malloc, realloc and free of the program.
 *
 * What goes out. A call returns a reply. If its `status` is TUBRAMBUTAN_ANSWERED, `answer` is set by calls that return one;
 * otherwise it is 0. `size` is the length of the text that goes out, 0 if none does. If the room has at least `size` bytes, its first `size`
 * bytes become the text and the rest stay. If it has fewer, no byte of it is changed: call again with room for `size` bytes. No zero byte
 * ends a text. If the status is TUBRAMBUTAN_REFUSED, the text is the line that the program prints, with its line feed ("refused input 1
 * line 2 code 57 33 12"; docs/CODES.md says what the codes mean). TUBRAMBUTAN_MISCUT means an unknown kind, parts that don't add up to
 * byte_count, or a group for something other than a project file; nothing goes out then.
 *
 * Many texts in one. A zero byte stands between two of them. A length of 0 means one empty text.
 *
 * What a caller owes. Where it breaks one of these, nothing is promised.
 * - A pointer isn't null, even if the length is 0, and the number of bytes (or parts) that the next argument gives can be read there, fewer
 *   than 2^63 bytes in all. Nothing changes them while the call runs. Parts are aligned as a tubrambutan_part.
 * - The room's bytes can be read and written, and lie in nothing else that is handed to the call. Nothing else reads or writes them while it runs.
 *   They have been written before (calloc, not malloc). The same holds of the room for numbers, which is aligned as a uint64_t.
 * - A bool is false or true.
 * - malloc, realloc and free belong to one allocator, which all calling threads may use at once. It aligns a block to each power of two up to 16
 *   that divides its size.
 * - The stack has 512 KiB left. A file that nests 700 levels takes up to some 290 KiB, a marker of 1,024 comparisons some 250.
 * - No call comes from a signal handler, or from the forked child of a process with threads.
 * - Nothing else in the program has these names.
 *
 * Calls may run at once on any threads. None keeps what it was handed, and none leaves memory behind.
 */
#ifndef TUBRAMBUTAN_H
#define TUBRAMBUTAN_H

#include <stdbool.h>
#include <stddef.h>
#include <stdint.h>

#ifdef __cplusplus
extern "C" {
#endif

/* The status of a reply. */
enum { TUBRAMBUTAN_ANSWERED = 0, TUBRAMBUTAN_MISCUT = 1, TUBRAMBUTAN_REFUSED = 2 };

/* The kind of an input: a list of requirements, a pyproject.toml, or a printed table. docs/INPUTS.md says what each may hold. */
enum { TUBRAMBUTAN_LIST = 0, TUBRAMBUTAN_PROJECT = 1, TUBRAMBUTAN_TABLE = 2 };

/* An input in a buffer that holds all one after another: its kind, its size, and the size of the dependency group's name (PEP 735), which
 * stands just before the input's text. `size` doesn't include that name. `group_size` is 0 for no group, and for lists and tables. With a
 * group, a project file's dependencies don't count. An extra is a variable of the environment. */
typedef struct {
    uint32_t kind;
    size_t size;
    size_t group_size;
} tubrambutan_part;

/* The library is made for addresses of 64 bits. */
#ifdef __cplusplus
static_assert(sizeof(size_t) == 8, "sizes of 64 bits");
#else
_Static_assert(sizeof(size_t) == 8, "sizes of 64 bits");
#endif

/* What a call gives back. */
typedef struct {
    uint32_t status;
    int32_t answer;
    size_t size;
} tubrambutan_reply;

/* The text of the table of inputs, in the environment of a file with these bytes (docs/INPUTS.md, "An environment file"). */
tubrambutan_reply tubrambutan_merge(const uint8_t *environment, size_t environment_size, const tubrambutan_part *parts,
                                    size_t part_count, const uint8_t *bytes, size_t byte_count, uint8_t *room, size_t room_size);

/* Whether a version of the package with this name meets all that such inputs demand of it: 1 for yes, 0 for no, -1 where two different
 * URLs are demanded. A pre-release is taken only where these are wanted. */
tubrambutan_reply tubrambutan_check(const uint8_t *environment, size_t environment_size, const tubrambutan_part *parts,
                                    size_t part_count, const uint8_t *bytes, size_t byte_count, const uint8_t *name,
                                    size_t name_size, const uint8_t *version, size_t version_size, bool wants_pre_releases,
                                    uint8_t *room, size_t room_size);

/* What such inputs say of many versions. They are read once. Each question is a name, a space and a version, with a zero byte between two
 * questions. For each there is one byte: 0 where a demand on the package isn't met; 1 where all are and the version is no pre-release, 3 where
 * all are and it is one; 4 where two different URLs are demanded; 2 where the question has no name or no version. */
tubrambutan_reply tubrambutan_check_each(const uint8_t *environment, size_t environment_size, const tubrambutan_part *parts,
                                         size_t part_count, const uint8_t *bytes, size_t byte_count, const uint8_t *questions,
                                         size_t questions_size, uint8_t *room, size_t room_size);

/* Why the package with this name has its verdict on what such inputs demand, as lines: "NAME VERDICT", where the verdict is "open", "none" or
 * "conflict"; "claim I N TEXT" for each requirement on it that applies, and for each entry of a table on it, in order; and "clash I N TEXT"
 * for each of these that clash together. If any one of them is dropped, this clash is gone. An open package has none. I is the number of the
 * input, N the number of the line (for an entry its first line, for a project file the number of the text). Both are counted from 1. TEXT is
 * the requirement's normal text, or the name of the entry. */
tubrambutan_reply tubrambutan_why(const uint8_t *environment, size_t environment_size, const tubrambutan_part *parts,
                                  size_t part_count, const uint8_t *bytes, size_t byte_count, const uint8_t *name, size_t name_size,
                                  uint8_t *room, size_t room_size);

/* The same lines for each package whose verdict isn't open, in the byte order of the names. */
tubrambutan_reply tubrambutan_clashes(const uint8_t *environment, size_t environment_size, const tubrambutan_part *parts,
                                      size_t part_count, const uint8_t *bytes, size_t byte_count, uint8_t *room, size_t room_size);

/* The normal text of a version (PEP 440, "Normalization"). */
tubrambutan_reply tubrambutan_version(const uint8_t *version, size_t version_size, uint8_t *room, size_t room_size);

/* The normal text of a requirement (PEP 508). A refusal names it as line 1 of input 1. */
tubrambutan_reply tubrambutan_requirement(const uint8_t *requirement, size_t requirement_size, uint8_t *room, size_t room_size);

/* Whether a version specifier clause, as ">=1.0", admits a version (PEP 440, "Version specifiers"): 1 for yes, 0 for no. A refusal
 * of the clause names it as line 1 of input 1. */
tubrambutan_reply tubrambutan_admits(const uint8_t *clause, size_t clause_size, const uint8_t *version, size_t version_size,
                                     uint8_t *room, size_t room_size);

/* The order of two versions (PEP 440): -1 where the first is below the second, 0 where they are the same, 1 where it is above. */
tubrambutan_reply tubrambutan_compare(const uint8_t *first, size_t first_size, const uint8_t *second, size_t second_size,
                                      uint8_t *room, size_t room_size);

/* The key of a version. Keys in byte order (memcmp; a prefix comes first) are versions in order, and versions that are equal in order have
 * one key. */
tubrambutan_reply tubrambutan_key(const uint8_t *version, size_t version_size, uint8_t *room, size_t room_size);

/* The keys of many versions, whose texts have a zero byte between two: of each its length as eight bytes, the most significant first,
 * and the key. A text that is no version has the length 0. */
tubrambutan_reply tubrambutan_keys(const uint8_t *versions, size_t versions_size, uint8_t *room, size_t room_size);

/* The numbers of a version: the epoch; the phase of a pre-release (1 for a, 2 for b, 3 for rc) and its number; 1 and the number of a
 * post-release; 1 and the number of a developmental release; each of these 0 and 0 where there is none; and then the numbers of the
 * release. The size of the reply counts them, and they go out if there is room for as many. The line of a refusal goes into the other room. */
tubrambutan_reply tubrambutan_version_numbers(const uint8_t *version, size_t version_size, uint64_t *numbers, size_t number_count,
                                              uint8_t *room, size_t room_size);

/* The parts of a requirement, each on a line of its own: "name N", normalized; "extra E" for each extra, in byte order; "clause C" for
 * each clause, or "url U" as it was written; and "marker M" where there is one. A refusal names it as line 1 of input 1. */
tubrambutan_reply tubrambutan_requirement_parts(const uint8_t *requirement, size_t requirement_size, uint8_t *room,
                                                size_t room_size);

/* The normalized text of a name (PEP 503). */
tubrambutan_reply tubrambutan_name(const uint8_t *name, size_t name_size, uint8_t *room, size_t room_size);

/* The normal texts of version specifier clauses with a comma between two, each on a line of its own. What stands between two commas
 * may be white space alone. A refusal names the first that is no clause as line 1 of input 1. */
tubrambutan_reply tubrambutan_clauses(const uint8_t *clauses, size_t clauses_size, uint8_t *room, size_t room_size);

/* Which of many versions, whose texts have a zero byte between two, such clauses admit: for each one byte, 0 where a clause doesn't admit
 * it; 1 where all do and it is no pre-release; 3 where all do and it is one; 2 where the text is no version. */
tubrambutan_reply tubrambutan_admits_each(const uint8_t *clauses, size_t clauses_size, const uint8_t *versions,
                                          size_t versions_size, uint8_t *room, size_t room_size);

/* The versions that such clauses other than those with "===" admit, as sorted ranges between cuts, each on a line of its own, as "before 1 to
 * before 2.dev0" (docs/INPUTS.md, "What is printed"). There is no line exactly if these clauses admit no version. A refusal is as of
 * tubrambutan_clauses. */
tubrambutan_reply tubrambutan_ranges(const uint8_t *clauses, size_t clauses_size, uint8_t *room, size_t room_size);

/* Whether the others admit every version that these clauses admit: 1 for yes, 0 for no. "===" counts like any clause. Refusals are those of
 * tubrambutan_clauses; for the others they name input 2, line 1. */
tubrambutan_reply tubrambutan_within(const uint8_t *clauses, size_t clauses_size, const uint8_t *others, size_t others_size,
                                     uint8_t *room, size_t room_size);

/* Whether a marker holds in the environment of a file with these bytes (PEP 508, "Environment Markers"): 1 for yes, 0 for no. A refusal of
 * the marker names it as line 1 of input 1. */
tubrambutan_reply tubrambutan_judge(const uint8_t *environment, size_t environment_size, const uint8_t *marker, size_t marker_size,
                                    uint8_t *room, size_t room_size);

/* The shard of each line of a list, among so many shards: a number from 0, the same for all lines with one name, on each machine, whether or
 * not their markers hold. For an empty line or a comment it is the count. A count of 0 stands for 1. What follows a name isn't read; only the
 * line's length and UTF-8 are checked. The list may be of any size. The size of the reply counts the numbers, one more than there are line
 * feeds, and they go out if there is room for as many. The line of a refusal goes into the other room. */
tubrambutan_reply tubrambutan_split(const uint8_t *bytes, size_t byte_count, uint64_t count, uint64_t *numbers, size_t number_count,
                                    uint8_t *room, size_t room_size);

#ifdef __cplusplus
}
#endif

#endif
