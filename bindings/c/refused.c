/* Refuses each growth of each call in turn, alone and with all that follow it. A call whose memory is
 * refused from some growth on answers NO_MEMORY; where one growth alone is refused, which may be one
 * that was only asked for ahead, it may also give the answer that it gives undisturbed. Whatever it
 * answers, it leaves no block, and changes its room where its answer is alone. `bindings/run` runs this over the
 * lockfiles of the tests.
 *
 *     refused Cargo.lock ..
 */
#include "../../tests/rattle_memory.h"
#include "cargo_lock.h"

#include <stdio.h>
#include <stdlib.h>
#include <string.h>

/* ---- the memory of the library, in place of the kit's */

static long growths, first_refused, blocks;
static bool is_lone;

static bool is_refused(void)
{
    growths++;
    return first_refused && (is_lone ? growths == first_refused : growths >= first_refused);
}

static Block given(void *at)
{
    static char nowhere;
    Block made = {at != NULL, at != NULL ? at : &nowhere};
    return made;
}

Block rattle_alloc(size_t size, size_t align)
{
    void *at = is_refused() ? NULL : malloc(size ? size : align);
    blocks += at != NULL;
    return given(at);
}

Block rattle_realloc(void *at, size_t old_size, size_t size, size_t align)
{
    (void)old_size;
    return given(is_refused() ? NULL : realloc(at, size ? size : align));
}

void rattle_dealloc(void *at)
{
    blocks--;
    free(at);
}

/* ---- the calls */

enum { ROOM = 1 << 20 };
/* The room, with an alignment for edges, and what it is filled with before a call. */
static cargo_lock_edge room[ROOM / sizeof(cargo_lock_edge)];
static uint8_t filled[ROOM];
static const uint8_t *text;
static size_t text_len, length;

static uint32_t format(void)
{
    uint32_t number = 77, status = cargo_lock_format(text, text_len, &number);
    return status || number <= 4 ? status : 77;
}

static uint32_t fault(void)
{
    return cargo_lock_fault(text, text_len, (uint8_t *)room, ROOM, &length);
}

static uint32_t survives(void)
{
    return cargo_lock_survives(text, text_len, 1);
}

static uint32_t translate(void)
{
    return cargo_lock_translate(text, text_len, 4, (uint8_t *)room, ROOM, &length);
}

static uint32_t packages(void)
{
    return cargo_lock_packages(text, text_len, (uint8_t *)room, ROOM, &length);
}

static uint32_t edges(void)
{
    uint32_t status = cargo_lock_edges(text, text_len, room, sizeof room / sizeof *room, &length);
    length *= status == CARGO_LOCK_DONE ? sizeof *room : 1;
    return status;
}

static uint32_t tree(void)
{
    return cargo_lock_tree(text, text_len, 0, false, true, (uint8_t *)room, ROOM, &length);
}

/* A lockfile with one package, which others are compared with. */
static const char other[] = "[[package]]\nname = \"app\"\nversion = \"0.1.0\"\n";

static uint32_t diff(void)
{
    return cargo_lock_diff(text, text_len, (const uint8_t *)other, sizeof other - 1, true,
                           (uint8_t *)room, ROOM, &length);
}

static uint32_t check(void)
{
    return cargo_lock_check(text, text_len, (uint8_t *)room, ROOM, &length);
}

static uint32_t bill(void)
{
    return cargo_lock_bill(text, text_len, false, (uint8_t *)room, ROOM, &length);
}

/* What fits a package of most of the texts. */
static const char spec[] = "1.0.0";

static uint32_t why(void)
{
    return cargo_lock_why(text, text_len, (const uint8_t *)spec, sizeof spec - 1, true,
                          (uint8_t *)room, ROOM, &length);
}

static uint32_t duplicates(void)
{
    return cargo_lock_duplicates(text, text_len, (uint8_t *)room, ROOM, &length);
}

static uint32_t json(void)
{
    return cargo_lock_json(text, text_len, (uint8_t *)room, ROOM, &length);
}

/* Over no base, so that the sides are in conflict where both have the package. */
static uint32_t merge(void)
{
    return cargo_lock_merge(text, 0, text, text_len, (const uint8_t *)other, sizeof other - 1,
                            (uint8_t *)room, ROOM, &length);
}

static uint32_t moved(void)
{
    return cargo_lock_merge_moved((const uint8_t *)other, sizeof other - 1, text, text_len, text,
                                  text_len, (uint8_t *)room, ROOM, &length);
}

static const struct {
    const char *name;
    uint32_t (*call)(void);
} calls[] = {{"format", format},       {"fault", fault}, {"survives", survives},
             {"translate", translate}, {"edges", edges}, {"packages", packages},
             {"tree", tree},           {"diff", diff},   {"check", check},
             {"bill", bill},           {"why", why},     {"duplicates", duplicates},
             {"json", json},           {"merge", merge}, {"moved", moved}};

/* ---- what is asked of each */

static long asked, failed;

static void fail(const char *path, const char *name, const char *what)
{
    if (failed++ < 20)
        printf("failed: %s, %s, %s growth %ld: %s\n", path, name, is_lone ? "lone" : "each",
               first_refused, what);
}

/* Calls with growths refused from this one on, or this one alone; 0 refuses none. */
static uint32_t disturbed(const char *path, size_t at, long first)
{
    uint32_t status;
    first_refused = first;
    growths = 0;
    length = 0;
    memcpy(room, filled, ROOM);
    status = calls[at].call();
    asked++;
    if (blocks)
        fail(path, calls[at].name, "blocks are left");
    blocks = 0;
    if (memcmp((uint8_t *)room + length, filled + length, ROOM - length))
        fail(path, calls[at].name, "the buffer is changed outside of the answer");
    return status;
}

static void refuse_each(const char *path, size_t at)
{
    uint32_t undisturbed = disturbed(path, at, 0);
    size_t wanted = length;
    long all = growths;
    uint8_t *answer = malloc(wanted + 1);
    memcpy(answer, room, wanted);
    for (int lone = 0; lone <= 1; lone++) {
        for (long first = 1; first <= all; first++) {
            is_lone = lone;
            uint32_t status = disturbed(path, at, first);
            bool is_same = status == undisturbed && length == wanted &&
                           !memcmp(room, answer, wanted);
            if (status == CARGO_LOCK_NO_MEMORY ? length != 0 : !is_lone || !is_same)
                fail(path, calls[at].name, "another answer");
        }
        is_lone = false;
    }
    free(answer);
}

static bool read_text(const char *path)
{
    static uint8_t bytes[ROOM];
    FILE *file = fopen(path, "rb");
    if (file == NULL)
        return false;
    text = bytes;
    text_len = fread(bytes, 1, sizeof bytes, file);
    fclose(file);
    return true;
}

int main(int argc, char **argv)
{
    memset(filled, '?', sizeof filled);
    for (int at = 1; at < argc; at++) {
        if (!read_text(argv[at])) {
            perror(argv[at]);
            return 2;
        }
        for (size_t call = 0; call < sizeof calls / sizeof *calls; call++)
            refuse_each(argv[at], call);
    }
    printf("%ld calls over %d texts, %ld fail\n", asked, argc - 1, failed);
    return failed || !asked;
}
