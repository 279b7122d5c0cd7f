#define _GNU_SOURCE
#include "mutate.h"
#include <stdio.h>
#include <stdlib.h>
#include <string.h>

enum { LONGEST_PIECE = 65536 };

/* What stands in lockfiles, and what does not. */
static const char *const words[] = {
    "version = 1\n",
    "version = 2\n",
    "version = 3\n",
    "version = 4\n",
    "version = 5\n",
    "version = -1\n",
    "version = 99999999999\n",
    "version = \"3\"\n",
    "[[package]]\n",
    "[metadata]\n",
    "[[patch.unused]]\n",
    "[root]\n",
    "[patch]\n",
    "name = \"a\"\n",
    "version = \"0.0.0\"\n",
    "source = \"registry+https://github.com/rust-lang/crates.io-index\"\n",
    "source = \"git+https://example.org/u?tag=a-_%2B%23%24%29z#"
    "0123456789012345678901234567890123456789\"\n",
    "source = \"git+ssh://git@example.org/a b?branch=x y#abc\"\n",
    "source = \"path+file:///a\"\n",
    "source = \"sparse+https://index.crates.io/\"\n",
    "checksum = \"0000000000000000000000000000000000000000000000000000000000000000\"\n",
    "dependencies = [\n \"a\",\n]\n",
    "replace = \"a 1.0.0\"\n",
    "dependencies = []\n",
    "unused = []\n",
    "\"checksum a 1.0.0\" = \"<none>\"\n",
    "\"checksum a 1.0.0 (registry+https://github.com/rust-lang/crates.io-index)\" = "
    "\"0000000000000000000000000000000000000000000000000000000000000000\"\n",
    "\\u0000",
    "\\u001F",
    "\\u007F",
    "\\\"",
    "\\n",
    "\xef\xbb\xbf",
    "\r\n",
    "'''",
    "\"\"\"",
    " ",
    "\xc2\xa0",
    "\xe3\x80\x80",
    "\xf0\x9f\xa6\x80",
    "1.0.0",
    "1.0.0-alpha.1+b.2",
    "18446744073709551615.0.0",
    "#",
    "?",
    "&",
    "%",
    "%2B",
    "%zz",
    "+",
    "@",
    "(",
    ")",
    "registry+",
    "git+",
    "?rev=",
    "?branch=",
    "&tag=",
    "?ref=",
};

enum { FORMAT_LINES = 8 };

static uint64_t state;
static uint8_t piece_room[LONGEST_PIECE];

void start_random(uint64_t seed) {
    state = seed * 0x9E3779B97F4A7C15u + 1;
    state += state == 0;
}

static uint64_t random_number(void) {
    state ^= state << 13;
    state ^= state >> 7;
    state ^= state << 17;
    return (state * 0x2545F4914F6CDD1Du) >> 16;
}

/* A number below a bound, 0 where the bound is 0. */
static size_t below(size_t bound) {
    return bound == 0 ? 0 : (size_t)(random_number() % bound);
}

/* Puts bytes in the place of some, where there is room. */
static void put(Text *text, size_t at, size_t cut, const void *bytes, size_t length) {
    at = at > text->length ? text->length : at;
    cut = cut > text->length - at ? text->length - at : cut;
    if (text->length - cut + length > LONGEST) {
        return;
    }
    memmove(text->bytes + at + length, text->bytes + at + cut, text->length - at - cut);
    if (length > 0) {
        memcpy(text->bytes + at, bytes, length);
    }
    text->length += length - cut;
}

typedef struct {
    size_t start;
    size_t length;
} Piece;

/* A piece that ends in this text: a line, or a block. */
static Piece some_piece(const Text *text, const char *end) {
    size_t size = strlen(end), start = below(text->length), stop = text->length;
    while (start > 0 &&
           !(start >= size && memcmp(text->bytes + start - size, end, size) == 0)) {
        start--;
    }
    const uint8_t *found =
        text->length > 0 ? memmem(text->bytes + start, text->length - start, end, size) : NULL;
    if (found != NULL) {
        stop = (size_t)(found - text->bytes) + size;
    }
    return (Piece){start, stop - start};
}

/* Takes a piece of one text, and answers its length, 0 where there is no room. */
static size_t take(const Text *text, Piece piece) {
    if (piece.length == 0 || piece.length > LONGEST_PIECE) {
        return 0;
    }
    memcpy(piece_room, text->bytes + piece.start, piece.length);
    return piece.length;
}

static void remove_piece(Text *text, const char *end) {
    Piece piece = some_piece(text, end);
    put(text, piece.start, piece.length, NULL, 0);
}

static void repeat_piece(Text *text, const char *end) {
    Piece piece = some_piece(text, end);
    size_t length = take(text, piece);
    put(text, piece.start, 0, piece_room, length);
}

static void move_piece(Text *text, const char *end) {
    Piece piece = some_piece(text, end);
    size_t length = take(text, piece);
    if (length > 0) {
        put(text, piece.start, piece.length, NULL, 0);
        put(text, some_piece(text, end).start, 0, piece_room, length);
    }
}

static void take_piece_of(const Text *other, Text *text, const char *end) {
    size_t length = take(other, some_piece(other, end));
    Piece piece = some_piece(text, end);
    put(text, piece.start, below(2) ? piece.length : 0, piece_room, length);
}

static void change_byte(Text *text) {
    if (text->length == 0) {
        return;
    }
    uint8_t *byte = text->bytes + below(text->length);
    *byte = below(2) ? (uint8_t)random_number() : (uint8_t)(*byte ^ (1u << below(8)));
}

static void add_byte(Text *text) {
    uint8_t byte = (uint8_t)(' ' + below(95));
    put(text, below(text->length + 1), 0, &byte, 1);
}

static void remove_bytes(Text *text) {
    put(text, below(text->length + 1), 1 + below(below(3) ? 3 : 40), NULL, 0);
}

static void change_number(Text *text) {
    size_t at = below(text->length + 1);
    while (at < text->length && (text->bytes[at] < '0' || text->bytes[at] > '9')) {
        at++;
    }
    if (at < text->length && below(3)) {
        text->bytes[at] = (uint8_t)('0' + below(10));
    } else if (at < text->length) {
        put(text, at, 0, "99999999999999999999", 1 + below(20));
    }
}

static void add_word(Text *text) {
    const char *word = words[below(sizeof words / sizeof *words)];
    Piece line = some_piece(text, "\n");
    if (below(2)) {
        put(text, below(text->length + 1), 0, word, strlen(word));
    } else {
        put(text, line.start, below(2) ? line.length : 0, word, strlen(word));
    }
}

static void change_format(Text *text) {
    static const char line[] = "\nversion = ";
    size_t size = sizeof line - 1;
    uint8_t *found = memmem(text->bytes, text->length, line, size);
    if (found != NULL && found + size < text->bytes + text->length && found[size] != '"') {
        found[size] = (uint8_t)('0' + below(6));
    } else {
        const char *word = words[below(FORMAT_LINES)];
        put(text, 0, 0, word, strlen(word));
    }
}

/* A word between quotation marks, without them. */
static Piece some_quoted(const Text *text) {
    size_t at = below(text->length + 1);
    const uint8_t *open = memchr(text->bytes + at, '"', text->length - at);
    if (open == NULL) {
        return (Piece){0, 0};
    }
    size_t start = (size_t)(open - text->bytes) + 1;
    const uint8_t *close = memchr(text->bytes + start, '"', text->length - start);
    return (Piece){start, close == NULL ? 0 : (size_t)(close - text->bytes) - start};
}

static void exchange_quoted(Text *text) {
    size_t length = take(text, some_quoted(text));
    Piece other = some_quoted(text);
    if (length > 0 && other.length > 0) {
        put(text, other.start, other.length, piece_room, length);
    }
}

static void change(const Text *other, Text *text) {
    const char *end = below(2) ? "\n" : "\n\n";
    switch (below(11)) {
    case 0: change_byte(text); break;
    case 1: add_byte(text); break;
    case 2: remove_bytes(text); break;
    case 3: remove_piece(text, end); break;
    case 4: repeat_piece(text, end); break;
    case 5: move_piece(text, end); break;
    case 6: take_piece_of(other, text, end); break;
    case 7: change_number(text); break;
    case 8: add_word(text); break;
    case 9: change_format(text); break;
    default: exchange_quoted(text);
    }
}

void mutate(const Text *texts, size_t count, Text *made) {
    const Text *from = &texts[below(count)];
    made->length = from->length > LONGEST ? LONGEST : from->length;
    memcpy(made->bytes, from->bytes, made->length);
    for (size_t times = 1 + below(below(4) ? 3 : 12); times > 0; times--) {
        change(&texts[below(count)], made);
    }
}
