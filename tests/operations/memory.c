#define _GNU_SOURCE
#include "../rattle_memory.h"
#include "operations.h"
#include <elf.h>
#include <fcntl.h>
#include <stdio.h>
#include <stdlib.h>
#include <string.h>
#include <sys/mman.h>
#include <sys/stat.h>
#include <unistd.h>

enum { DEEPEST = 64 };

static uint64_t growths, first_refused, count_of_refusals, blocks;
static bool is_lone;
static uintptr_t returns[DEEPEST];
static size_t depth;
static const void *stack_top;

/* Notes the return addresses along the stack, by the frame pointers that every function keeps. */
static void note_place(void) {
    const uintptr_t *frame = __builtin_frame_address(0);
    depth = 0;
    while (depth < DEEPEST && (const void *)frame < stack_top) {
        const uintptr_t *above = (const uintptr_t *)frame[0];
        returns[depth++] = frame[1];
        if (above <= frame) {
            break;
        }
        frame = above;
    }
}

static bool is_refused(void) {
    growths++;
    if (first_refused == 0 || growths < first_refused || (is_lone && growths > first_refused)) {
        return false;
    }
    if (count_of_refusals++ == 0 && is_lone) {
        note_place();
    }
    return true;
}

static Block given(void *at) {
    static char nowhere;
    Block block = {at != NULL, at != NULL ? at : &nowhere};
    return block;
}

Block rattle_alloc(size_t size, size_t align) {
    if (is_refused()) {
        return given(NULL);
    }
    void *at = malloc(size != 0 ? size : align);
    blocks += at != NULL;
    return given(at);
}

Block rattle_realloc(void *at, size_t old_size, size_t size, size_t align) {
    (void)old_size;
    if (is_refused()) {
        return given(NULL);
    }
    return given(realloc(at, size != 0 ? size : align));
}

void rattle_dealloc(void *at) {
    blocks--;
    free(at);
}

void refuse(uint64_t growth, bool lone) {
    growths = 0;
    first_refused = growth;
    count_of_refusals = 0;
    is_lone = lone;
    depth = 0;
}

uint64_t refused(void) {
    first_refused = 0;
    return growths;
}

uint64_t live_blocks(void) {
    return blocks;
}

bool refuses_alone(void) {
    return is_lone;
}

uint64_t refusals(void) {
    return count_of_refusals;
}

/* ---- names of functions */

typedef struct {
    uintptr_t start;
    uintptr_t size;
    const char *name;
} Function;

static Function *functions;
static size_t count_of_functions;

static int compare_starts(const void *one, const void *other) {
    uintptr_t a = ((const Function *)one)->start, b = ((const Function *)other)->start;
    return (a > b) - (a < b);
}

/* Takes the functions of a table of symbols. */
static bool take_symbols(const char *file, const Elf64_Shdr *sections, const Elf64_Shdr *table) {
    const Elf64_Sym *symbols = (const Elf64_Sym *)(file + table->sh_offset);
    size_t count = table->sh_size / sizeof *symbols;
    const char *texts = file + sections[table->sh_link].sh_offset;
    functions = calloc(count, sizeof *functions);
    if (functions == NULL) {
        return false;
    }
    for (size_t at = 0; at < count; at++) {
        if (ELF64_ST_TYPE(symbols[at].st_info) == STT_FUNC && symbols[at].st_value != 0) {
            Function one = {symbols[at].st_value, symbols[at].st_size, texts + symbols[at].st_name};
            functions[count_of_functions++] = one;
        }
    }
    qsort(functions, count_of_functions, sizeof *functions, compare_starts);
    return count_of_functions > 0;
}

/* The bytes of this program's file, which stay at hand. */
static const char *own_file(void) {
    int file = open("/proc/self/exe", O_RDONLY);
    struct stat status;
    if (file < 0 || fstat(file, &status) != 0) {
        return NULL;
    }
    void *bytes = mmap(NULL, (size_t)status.st_size, PROT_READ, MAP_PRIVATE, file, 0);
    close(file);
    return bytes == MAP_FAILED ? NULL : bytes;
}

bool read_names(const void *top) {
    const char *file = own_file();
    stack_top = top;
    if (file == NULL) {
        return false;
    }
    const Elf64_Ehdr *head = (const Elf64_Ehdr *)file;
    const Elf64_Shdr *sections = (const Elf64_Shdr *)(file + head->e_shoff);
    for (size_t at = 0; at < head->e_shnum; at++) {
        if (sections[at].sh_type == SHT_SYMTAB) {
            return take_symbols(file, sections, &sections[at]);
        }
    }
    return false;
}

static const char *name_at(uintptr_t address) {
    size_t low = 0, high = count_of_functions;
    while (low < high) {
        size_t middle = low + (high - low) / 2;
        if (functions[middle].start <= address) {
            low = middle + 1;
        } else {
            high = middle;
        }
    }
    if (low == 0 || address - functions[low - 1].start > functions[low - 1].size) {
        return NULL;
    }
    return functions[low - 1].name;
}

/* Whether a function is of the standard library, or of this harness, whose names have no `::`. */
static bool is_standard(const char *name) {
    static const char *const crates[] = {"core::",     "std::", "std_alloc::", "std_collections::",
                                         "std_heap::", "io::",  "std_io::",    "os::",
                                         "libc::"};
    for (size_t at = 0; at < sizeof crates / sizeof *crates; at++) {
        if (strncmp(name, crates[at], strlen(crates[at])) == 0) {
            return true;
        }
    }
    return strstr(name, "::") == NULL;
}

/* How long a name is without its instance. */
static int length_of(const char *name) {
    const char *end = strstr(name, "::<");
    return (int)(end != NULL ? (size_t)(end - name) : strlen(name));
}

void name_place(char *room, size_t size) {
    const char *hinted = NULL;
    for (size_t at = 0; at < depth; at++) {
        /* The address after a call may be past the end of the function that calls. */
        const char *name = name_at(returns[at] - 1);
        if (name == NULL) {
            continue;
        }
        if (strstr(name, "::grow_by_hint") != NULL) {
            hinted = name;
        } else if (!is_standard(name)) {
            snprintf(room, size, "%.*s%s%.*s", hinted != NULL ? length_of(hinted) : 0,
                     hinted != NULL ? hinted : "", hinted != NULL ? " for " : "", length_of(name),
                     name);
            return;
        }
    }
    snprintf(room, size, "a place without a name");
}
