/* Makes texts from lockfiles, and asks of each in process all that the operation `fuzz` asks.

       fuzz RUNS SEED FOLDER FILE..

   A text with a fault is kept in the folder. Each FILE in a folder `wrote` is one that Cargo
   wrote. */
#define _GNU_SOURCE
#include "../operations/operations.h"
#include "mutate.h"
#include <signal.h>
#include <stdio.h>
#include <stdlib.h>
#include <string.h>
#include <sys/time.h>
#include <time.h>
#include <unistd.h>

enum { FORMATS = 4, FAULTS_SHOWN = 20, SECONDS_AT_MOST = 60, SIGNAL_STACK = 1 << 16 };

/* The bits of an answer: a lockfile, of which format, the formats that it survives, its tree,
   whether some replacement is in no text, and whether the text has words. `BROKEN` has
   the number of a property below it. */
#define IS_LOCKFILE (1u << 8)
#define SURVIVES (1u << 8)
#define HAS_TREE (1u << 16)
#define HAS_UNPRINTED (1u << 17)
#define HAS_WORDS (1u << 18)
#define BROKEN (1u << 31)

typedef struct {
    unsigned long texts, not_utf8, lockfiles, trees, unprinted, worded, survivors[FORMATS + 1];
    unsigned long faults, bytes;
    double longest;
} Totals;

static Text *files, made;
static size_t count_of_files;
static char **paths;
static unsigned long runs, run;
static uint64_t seed, blocks_before;
static const char *folder;
static struct timespec started;
static Totals totals;

static const char *const properties[] = {
    "the text is not UTF-8, but was taken as such",
    "a call found no memory, or answered a fault that it never answers",
    "a lockfile survives a format though its table does not read back, or the other way",
    "the text of a survivor is not read",
    "the text of a survivor is read as another lockfile",
    "what is read from the text of a survivor is printed as another text",
    "the values of a lockfile are printed as another text than the lockfile",
    "a tree is drawn in two ways",
    "a text that was printed has no words, though it needs no escape",
};

/* Keeps the text at hand in the folder. */
static void keep(const char *what) {
    char path[4096];
    snprintf(path, sizeof path, "%s/%s-%lu-%lu", folder, what, (unsigned long)seed, run);
    FILE *file = fopen(path, "wb");
    if (file == NULL || fwrite(made.bytes, 1, made.length, file) != made.length) {
        perror(path);
    }
    if (file != NULL) {
        fclose(file);
    }
}

static void fault(const char *word, const char *what) {
    totals.faults++;
    if (totals.faults <= FAULTS_SHOWN) {
        printf("FAULT: run %lu of seed %lu, %zu bytes: %s\n", run, (unsigned long)seed, made.length,
               what);
        fflush(stdout);
        keep(word);
    }
}

/* A text ended the program, or took longer than it may. */
static void end_abnormally(int signal_number) {
    printf("FAULT: run %lu of seed %lu, %zu bytes: abnormal end by signal %d\n", run,
           (unsigned long)seed, made.length, signal_number);
    fflush(stdout);
    keep("signal");
    _exit(1);
}

static void catch_signals(void) {
    static char stack[SIGNAL_STACK];
    static const int numbers[] = {SIGSEGV, SIGBUS, SIGILL, SIGFPE, SIGABRT, SIGTRAP, SIGALRM};
    stack_t other = {.ss_sp = stack, .ss_size = sizeof stack};
    struct sigaction action = {.sa_handler = end_abnormally, .sa_flags = SA_ONSTACK};
    sigaltstack(&other, NULL);
    for (size_t at = 0; at < sizeof numbers / sizeof *numbers; at++) {
        sigaction(numbers[at], &action, NULL);
    }
}

void told(uint32_t outcome, uint64_t growth) {
    (void)outcome;
    (void)growth;
}

/* The first texts are the files themselves. */
static void make_text(void) {
    if (run <= count_of_files) {
        made.length = files[run - 1].length;
        memcpy(made.bytes, files[run - 1].bytes, made.length);
    } else {
        mutate(files, count_of_files, &made);
    }
}

bool next_question(uint8_t *name, size_t name_room, uint8_t *path, size_t path_room, uint8_t *text,
                   size_t text_room, Lengths *lengths) {
    (void)path;
    (void)path_room;
    if (run == runs || name_room < 4 || text_room < LONGEST) {
        return false;
    }
    run++;
    make_text();
    memcpy(name, "fuzz", 4);
    memcpy(text, made.bytes, made.length);
    *lengths = (Lengths){4, 0, made.length, false};
    blocks_before = live_blocks();
    alarm(SECONDS_AT_MOST);
    clock_gettime(CLOCK_PROCESS_CPUTIME_ID, &started);
    return true;
}

static void count_lockfile(uint32_t answer) {
    totals.lockfiles++;
    totals.trees += (answer & HAS_TREE) != 0;
    totals.unprinted += (answer & HAS_UNPRINTED) != 0;
    totals.worded += (answer & HAS_WORDS) != 0;
    for (unsigned format = 1; format <= FORMATS; format++) {
        totals.survivors[format] += (answer & (SURVIVES << format)) != 0;
    }
}

/* Whether the text is a file that Cargo wrote. */
static bool is_of_cargo(void) {
    return run <= count_of_files && strstr(paths[run - 1], "/wrote/") != NULL;
}

void take_answer(uint32_t answer) {
    struct timespec now;
    clock_gettime(CLOCK_PROCESS_CPUTIME_ID, &now);
    double seconds = (double)(now.tv_sec - started.tv_sec) +
                     (double)(now.tv_nsec - started.tv_nsec) / 1e9;
    alarm(0);
    totals.texts++;
    totals.bytes += made.length;
    totals.longest = seconds > totals.longest ? seconds : totals.longest;
    if (seconds > 1) {
        fault("slow", "it took over a second");
    }
    if (live_blocks() != blocks_before) {
        fault("blocks", "blocks were left over");
    }
    if (is_of_cargo() && (answer & (BROKEN | HAS_WORDS)) != HAS_WORDS) {
        fault("words", "a lockfile that Cargo wrote has no words");
    }
    if ((answer & BROKEN) != 0) {
        size_t number = answer & 255;
        bool is_known = number < sizeof properties / sizeof *properties;
        fault("property", is_known ? properties[number] : "an unknown property");
    } else if ((answer & IS_LOCKFILE) != 0) {
        count_lockfile(answer);
    } else {
        totals.not_utf8 += answer == NO_TEXT;
    }
}

static void read_file(Text *text, const char *path) {
    FILE *file = fopen(path, "rb");
    text->bytes = malloc(LONGEST);
    if (file == NULL || text->bytes == NULL) {
        perror(path);
        exit(2);
    }
    text->length = fread(text->bytes, 1, LONGEST, file);
    fclose(file);
}

static void tell(void) {
    printf("%lu texts of seed %lu, %lu bytes, %lu not UTF-8, the longest %.3f s\n", totals.texts,
           (unsigned long)seed, totals.bytes, totals.not_utf8, totals.longest);
    printf("lockfiles %lu, of them with a tree %lu, with a replacement that is in no text %lu, "
           "with words %lu\n",
           totals.lockfiles, totals.trees, totals.unprinted, totals.worded);
    for (unsigned format = 1; format <= FORMATS; format++) {
        printf("printed in V%u, read back and printed again: %lu\n", format,
               totals.survivors[format]);
    }
    printf("faults %lu\n", totals.faults);
}

int main(int count, char **words) {
    if (count < 5) {
        fputs("usage: fuzz RUNS SEED FOLDER FILE..\n", stderr);
        return 2;
    }
    runs = strtoul(words[1], NULL, 10);
    seed = strtoull(words[2], NULL, 10);
    folder = words[3];
    count_of_files = (size_t)count - 4;
    paths = words + 4;
    files = calloc(count_of_files, sizeof *files);
    made.bytes = malloc(LONGEST);
    if (files == NULL || made.bytes == NULL) {
        return 2;
    }
    for (size_t at = 0; at < count_of_files; at++) {
        read_file(&files[at], words[at + 4]);
    }
    start_random(seed);
    catch_signals();
    operations_main(1, words);
    tell();
    return totals.faults > 0 || totals.texts != runs;
}
