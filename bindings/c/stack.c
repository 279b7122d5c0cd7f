/* Asks one call about the deepest text that is read, on a stack of a given size.
 *
 *     stack KIBIBYTES CALL
 *
 * The stack is mapped memory of its own with a page below it that no access is allowed to, so a
 * call that needs more ends by a signal. A process asks one call, since a thread may take the stack
 * of one that ended. The status is 0 where the call gave its answer. `bindings/run` runs this. */
#define _GNU_SOURCE
#include "cargo_lock.h"

#include <pthread.h>
#include <stdio.h>
#include <stdlib.h>
#include <string.h>
#include <sys/mman.h>

enum { PAGE = 4096, ROOM = 1 << 16 };

static const char packages[] = "[[package]]\nname = \"app\"\nversion = \"0.1.0\"\n"
                               "dependencies = [\"left\"]\n"
                               "[[package]]\nname = \"left\"\nversion = \"1.0.0\"\n";
static char text[40000];
static size_t text_len;
static const char *call;
static uint8_t out[ROOM];
static uint32_t status;

/* Makes a text with the tables that nest deepest: below 80 lists of tables 80 tables, each under a
 * key of 80 parts. */
static void make_text(void)
{
    char *at = text + sprintf(text, "%s", packages);
    for (int lists = 1; lists <= 80; lists++) {
        at += sprintf(at, "[[a");
        for (int part = 1; part < lists; part++)
            at += sprintf(at, ".a");
        at += sprintf(at, "]]\n");
    }
    for (int tables = 0; tables < 80; tables++) {
        for (int part = 0; part < 80; part++)
            at += sprintf(at, part ? ".b" : "b");
        at += sprintf(at, " = {");
    }
    at += sprintf(at, "b = 1");
    for (int tables = 0; tables < 80; tables++)
        *at++ = '}';
    *at++ = '\n';
    text_len = (size_t)(at - text);
}

static uint32_t ask(void)
{
    const uint8_t *bytes = (const uint8_t *)text;
    cargo_lock_edge edges[4];
    size_t length = 0;
    uint32_t format = 0;
    if (strcmp(call, "format") == 0)
        return cargo_lock_format(bytes, text_len, &format);
    if (strcmp(call, "fault") == 0)
        return cargo_lock_fault(bytes, text_len, out, ROOM, &length);
    if (strcmp(call, "survives") == 0)
        return cargo_lock_survives(bytes, text_len, 4);
    if (strcmp(call, "translate") == 0)
        return cargo_lock_translate(bytes, text_len, 4, out, ROOM, &length);
    if (strcmp(call, "packages") == 0)
        return cargo_lock_packages(bytes, text_len, out, ROOM, &length);
    if (strcmp(call, "edges") == 0)
        return cargo_lock_edges(bytes, text_len, edges, 4, &length);
    if (strcmp(call, "tree") == 0)
        return cargo_lock_tree(bytes, text_len, 0, false, true, out, ROOM, &length);
    if (strcmp(call, "diff") == 0)
        return cargo_lock_diff(bytes, text_len, bytes, text_len, true, out, ROOM, &length);
    if (strcmp(call, "check") == 0)
        return cargo_lock_check(bytes, text_len, out, ROOM, &length);
    if (strcmp(call, "bill") == 0)
        return cargo_lock_bill(bytes, text_len, false, out, ROOM, &length);
    if (strcmp(call, "why") == 0)
        return cargo_lock_why(bytes, text_len, (const uint8_t *)"left", 4, true, out, ROOM,
                              &length);
    if (strcmp(call, "duplicates") == 0)
        return cargo_lock_duplicates(bytes, text_len, out, ROOM, &length);
    if (strcmp(call, "json") == 0)
        return cargo_lock_json(bytes, text_len, out, ROOM, &length);
    if (strcmp(call, "merge") == 0)
        return cargo_lock_merge(bytes, text_len, bytes, text_len, bytes, text_len, out, ROOM,
                                &length);
    if (strcmp(call, "merge_moved") == 0)
        return cargo_lock_merge_moved(bytes, text_len, bytes, text_len, bytes, text_len, out, ROOM,
                                      &length);
    fprintf(stderr, "no call is %s\n", call);
    exit(2);
}

static void *ask_in_thread(void *given)
{
    status = ask();
    return given;
}

int main(int count, char **words)
{
    size_t size = count == 3 ? (size_t)atol(words[1]) * 1024 : 0;
    pthread_attr_t attributes;
    pthread_t thread;
    if (size < 2 * PAGE || size % PAGE != 0) {
        fprintf(stderr, "usage: stack KIBIBYTES CALL\n");
        return 2;
    }
    call = words[2];
    make_text();
    uint8_t *memory = mmap(NULL, PAGE + size, PROT_READ | PROT_WRITE,
                           MAP_PRIVATE | MAP_ANONYMOUS, -1, 0);
    if (memory == MAP_FAILED || mprotect(memory, PAGE, PROT_NONE) != 0)
        return 2;
    pthread_attr_init(&attributes);
    if (pthread_attr_setstack(&attributes, memory + PAGE, size) != 0 ||
        pthread_create(&thread, &attributes, ask_in_thread, NULL) != 0)
        return 2;
    pthread_join(thread, NULL);
    if (status != CARGO_LOCK_DONE)
        fprintf(stderr, "%s: status %u\n", call, status);
    return status != CARGO_LOCK_DONE;
}
