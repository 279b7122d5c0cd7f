/* cargo_lock for callers in C: reads a Cargo.lock of any format, V1 to V4.
 *
 * Each call takes the bytes of a lockfile, of two or of three, and keeps nothing: any number of threads may
 * call at once, and there is nothing to free. A thread needs a stack of CARGO_LOCK_STACK bytes.
 * Some threads have less unless it is asked for: those of Java 1 MiB, those of musl 128 KiB.
 *
 * `text` points to `text_len` bytes, which are only read; so do `spec`, `old` and `new_`, and `base`,
 * `ours` and `theirs`, which may be the same bytes. `out` points to room for `out_len` items, and `length` and `format` to one
 * number each. These are the caller's, are not null, also where they hold nothing, and do not overlap while
 * a call runs.
 *
 * Each call returns a status. At CARGO_LOCK_DONE the answer is at the front of `out`, and
 * `*length` is how many items it has. At CARGO_LOCK_NO_ROOM the answer is longer than `out_len`,
 * `*length` is how many items it has, and `out` is unchanged: call again with that room. At
 * CARGO_LOCK_CONFLICTS and CARGO_LOCK_.._REFUSED, which only calls of merges return, `out` and
 * `*length` have a text as at CARGO_LOCK_DONE. At any other status `out`, `*length` and `*format` are
 * unchanged. A text in `out` is UTF-8 and has no byte 0 at its end.
 *
 * A lockfile comes from a stranger, and a message of cargo_lock_fault has its names, with newlines
 * and control characters: do not print it unchanged on a terminal. Nor a bill: it has the names
 * too, and JSON escapes no control characters above U+001F. The lines of cargo_lock_diff,
 * cargo_lock_check and cargo_lock_merge_moved, and those of conflicts and of what is refused, have
 * printable characters of ASCII alone, and show any other as `\u{..}` with its number. The documents
 * of cargo_lock_why, cargo_lock_duplicates and cargo_lock_json are as a bill is: do not print them
 * unchanged on a terminal. A source may have a user name and a password, in cargo_lock_packages and
 * in these documents, though not in a bill.
 */
#ifndef CARGO_LOCK_H
#define CARGO_LOCK_H

#include <stdbool.h>
#include <stddef.h>
#include <stdint.h>

/* The bytes of stack that are enough for each call. The text that nests deepest, 20 kB long, needs
 * 1,544 KiB; cargo_lock_bill was seen to read it on 2 MiB. */
#define CARGO_LOCK_STACK 2097152

#ifdef __cplusplus
extern "C" {
#endif

/* The number of the interface that this header has. */
#define CARGO_LOCK_INTERFACE 1

enum {
    /* The call gave its answer. */
    CARGO_LOCK_DONE = 0,
    /* The text is no lockfile. cargo_lock_fault says why. */
    CARGO_LOCK_NO_LOCKFILE = 1,
    /* The bytes are no UTF-8. */
    CARGO_LOCK_NO_TEXT = 2,
    /* Memory was refused. So is a text of 2^28 bytes or more with a URL of 4 GB or more. */
    CARGO_LOCK_NO_MEMORY = 3,
    /* The number of the format is none of 1 to 4. */
    CARGO_LOCK_NO_FORMAT = 4,
    /* The answer is longer than the room for it. */
    CARGO_LOCK_NO_ROOM = 5,
    /* The lockfile does not survive the format: written in it, it would not be read back. */
    CARGO_LOCK_LOST = 6,
    /* No package fits some dependency. */
    CARGO_LOCK_UNRESOLVED = 7,
    /* There is no package of that number. */
    CARGO_LOCK_NO_PACKAGE = 8,
    /* A name or a source has a control character, as a tab, or a separator of lines or paragraphs
     * (U+2028, U+2029), so no line can have it. */
    CARGO_LOCK_NO_LINE = 9,
    /* The second of several texts is no lockfile. cargo_lock_fault says why. */
    CARGO_LOCK_NO_NEW_LOCKFILE = 10,
    /* The second of several texts is no UTF-8. */
    CARGO_LOCK_NO_NEW_TEXT = 11,
    /* Two packages have the same name, version and source, user names and passwords aside, so a bill
     * would refer to both by one text. */
    CARGO_LOCK_REPEATED = 12,
    /* No package fits the specification. */
    CARGO_LOCK_NOTHING_FITS = 13,
    /* The bytes of the specification are no UTF-8. */
    CARGO_LOCK_NO_SPEC_TEXT = 14,
    /* The sides of a merge are in conflict. `out` has a line for each conflict. */
    CARGO_LOCK_CONFLICTS = 15,
    /* The base cannot be merged. `out` has the line that says why. */
    CARGO_LOCK_BASE_REFUSED = 16,
    /* The same of ours. */
    CARGO_LOCK_OURS_REFUSED = 17,
    /* The same of theirs. */
    CARGO_LOCK_THEIRS_REFUSED = 18,
    /* The third of three texts is no lockfile. cargo_lock_fault says why. */
    CARGO_LOCK_NO_THIRD_LOCKFILE = 19,
    /* The third of three texts is no UTF-8. */
    CARGO_LOCK_NO_THIRD_TEXT = 20
};

/* An edge, by the numbers of two packages in the lockfile's order, from 0: the package that depends,
 * and the one on which it depends. */
typedef struct {
    size_t from;
    size_t to;
} cargo_lock_edge;

/* CARGO_LOCK_INTERFACE of the library. */
uint32_t cargo_lock_interface(void);

/* The number of the lockfile's format, 1 to 4. DONE, NO_LOCKFILE, NO_TEXT or NO_MEMORY. */
uint32_t cargo_lock_format(const uint8_t *text, size_t text_len, uint32_t *format);

/* Why the text is no lockfile, in words. Where it is one, there are none: DONE, and a length of 0.
 * DONE, NO_TEXT, NO_MEMORY or NO_ROOM. */
uint32_t cargo_lock_fault(const uint8_t *text, size_t text_len, uint8_t *out, size_t out_len,
                          size_t *length);

/* Whether the lockfile survives the format of this number: DONE where it does, and LOST where it
 * does not. Else NO_LOCKFILE, NO_TEXT, NO_MEMORY or NO_FORMAT. */
uint32_t cargo_lock_survives(const uint8_t *text, size_t text_len, uint32_t format);

/* The text of the lockfile in the format of this number, which it must survive. Survival is of the
 * table: a root, and the replacement of a package with dependencies, are in no text. DONE,
 * NO_LOCKFILE, NO_TEXT, NO_MEMORY, NO_FORMAT, NO_ROOM or LOST. */
uint32_t cargo_lock_translate(const uint8_t *text, size_t text_len, uint32_t format, uint8_t *out,
                              size_t out_len, size_t *length);

/* The packages in the lockfile's order, a line each: name, version, source and checksum, with a tab
 * between two and a newline at the end. A source or a checksum that is missing is empty. DONE,
 * NO_LOCKFILE, NO_TEXT, NO_MEMORY, NO_ROOM or NO_LINE. */
uint32_t cargo_lock_packages(const uint8_t *text, size_t text_len, uint8_t *out, size_t out_len,
                             size_t *length);

/* The edges of the graph of packages: those of package 0 first, and of each package the one for its
 * last dependency first. A dependency leads to the package of its own name, version, URL and reference,
 * or where that does not match, as in a tree; and on to what replaces that package. Of equal packages the
 * last has the edges of all. `out_len` and `*length` count edges. DONE, NO_LOCKFILE, NO_TEXT, NO_MEMORY, NO_ROOM or UNRESOLVED. */
uint32_t cargo_lock_edges(const uint8_t *text, size_t text_len, cargo_lock_edge *out,
                          size_t out_len, size_t *length);

/* The drawing of the tree of a package, by its number in the lockfile's order, from 0: of what it
 * depends on, or, where it is inverted, of what depends on it. Exact labels have the checksum
 * too, or else the source. DONE, NO_LOCKFILE, NO_TEXT, NO_MEMORY, NO_ROOM, UNRESOLVED or
 * NO_PACKAGE. */
uint32_t cargo_lock_tree(const uint8_t *text, size_t text_len, size_t package, bool inverted,
                         bool exact, uint8_t *out, size_t out_len, size_t *length);

/* What differs between the packages of two lockfiles, a line for each change with a newline at the
 * end, as `cargo-lock diff` prints it, without the last line that counts them; with `dependencies`
 * also other dependencies of packages, as under `-d`. Where nothing differs the length is 0. The old
 * text is read first, and NO_LOCKFILE and NO_TEXT are said of it. DONE, NO_LOCKFILE, NO_TEXT,
 * NO_MEMORY, NO_ROOM, NO_NEW_LOCKFILE or NO_NEW_TEXT. */
uint32_t cargo_lock_diff(const uint8_t *old, size_t old_len, const uint8_t *new_, size_t new_len,
                         bool dependencies, uint8_t *out, size_t out_len, size_t *length);

/* What is wrong with the lockfile of a text, a line for each finding with a newline at the end, as
 * `cargo-lock check` prints it. Where nothing is wrong the length is 0. DONE, NO_LOCKFILE, NO_TEXT,
 * NO_MEMORY or NO_ROOM. */
uint32_t cargo_lock_check(const uint8_t *text, size_t text_len, uint8_t *out, size_t out_len,
                          size_t *length);

/* The bill of materials of the lockfile, CycloneDX 1.6 in JSON with a newline at the end, as
 * `cargo-lock bom` prints it without options, and where it is compact as under `--compact`, in one
 * line. DONE, NO_LOCKFILE, NO_TEXT, NO_MEMORY, NO_ROOM, UNRESOLVED or REPEATED. */
uint32_t cargo_lock_bill(const uint8_t *text, size_t text_len, bool compact, uint8_t *out,
                         size_t out_len, size_t *length);

/* Why the packages that a specification fits are in the lockfile, in one line of JSON with a
 * newline at the end, as `cargo-lock why --json -f -` prints it: the path in it is `-`. There is a
 * shortest chain of dependencies for each of these packages, and with `all` one from each root that
 * leads to it, as under `--all`. A specification is a name, a version, both as NAME@VERSION, a
 * checksum or a commit, and is read before the text. DONE, NO_LOCKFILE, NO_TEXT, NO_MEMORY, NO_ROOM,
 * UNRESOLVED, NOTHING_FITS or NO_SPEC_TEXT. */
uint32_t cargo_lock_why(const uint8_t *text, size_t text_len, const uint8_t *spec, size_t spec_len,
                        bool all, uint8_t *out, size_t out_len, size_t *length);

/* The names that several packages of the lockfile have, with these packages and what depends on
 * each, in one line of JSON with a newline at the end, as `cargo-lock duplicates --json -f -`
 * prints it: the path in it is `-`. DONE, NO_LOCKFILE, NO_TEXT, NO_MEMORY, NO_ROOM or UNRESOLVED. */
uint32_t cargo_lock_duplicates(const uint8_t *text, size_t text_len, uint8_t *out, size_t out_len,
                               size_t *length);

/* The lockfile in one line of JSON with a newline at the end, as `cargo-lock json -f -` prints it:
 * its packages, and the places of the packages on which each depends. A dependency that no package
 * fits is in it too, so no lockfile is refused. DONE, NO_LOCKFILE, NO_TEXT, NO_MEMORY or NO_ROOM. */
uint32_t cargo_lock_json(const uint8_t *text, size_t text_len, uint8_t *out, size_t out_len,
                         size_t *length);

/* The text of the merge of two lockfiles over their common ancestor, by packages, as `cargo-lock
 * merge` prints it: as Cargo writes it, with the comments at the top that Cargo keeps. An empty base is
 * a lockfile without packages. At CONFLICTS there is no merge, and
 * `out` has a line for each conflict with a newline at the end; at BASE_REFUSED, OURS_REFUSED or
 * THEIRS_REFUSED it has the line that says why that lockfile cannot be merged. The texts are read in
 * their order: NO_LOCKFILE and NO_TEXT are said of the base, NO_NEW_LOCKFILE and NO_NEW_TEXT of ours,
 * and NO_THIRD_LOCKFILE and NO_THIRD_TEXT of theirs. Or DONE, NO_MEMORY or NO_ROOM. No lockfile says
 * which versions a requirement admits, so ask `cargo metadata --locked` after a merge. */
uint32_t cargo_lock_merge(const uint8_t *base, size_t base_len, const uint8_t *ours,
                          size_t ours_len, const uint8_t *theirs, size_t theirs_len, uint8_t *out,
                          size_t out_len, size_t *length);

/* What this merge reports: that both sides changed the comments at the top, the versions of members of
 * the workspace that it chose, the checksums that a side lost, and the references that it moved,
 * dependencies on packages that neither side has for them: a line for each with a newline at the end, as `cargo-lock merge` prints it on standard error. Where
 * there is nothing to report the length is 0. It has a call of its own so that each call has one buffer. The
 * statuses are those of cargo_lock_merge, with the same texts at CONFLICTS and at .._REFUSED. */
uint32_t cargo_lock_merge_moved(const uint8_t *base, size_t base_len, const uint8_t *ours,
                                size_t ours_len, const uint8_t *theirs, size_t theirs_len,
                                uint8_t *out, size_t out_len, size_t *length);

#ifdef __cplusplus
}
#endif

#endif
