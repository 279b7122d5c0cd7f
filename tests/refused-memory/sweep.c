/* Sweeps each operation over each text: refuses each growth of its calls, alone and with all that
   follow, and judges what came of it.

       sweep FOLDER CHILDREN OPERATIONS PLACES FILE.. --refused FILE..

   OPERATIONS has the name of an operation a line. PLACES has a place in the code a line, at which
   a growth that is refused alone may be without effect. The files after --refused are no lockfiles.
   With SWEEP_EACH in the environment the calls of each operation are told too.

   Of N children, child I takes an operation over a text where the sum of their places is I modulo
   N, in FOLDER/I. One operation takes most of the time, so each child takes some texts of it.
   What they count and find is in memory that is shared, and the parent alone reports it. */
#define _GNU_SOURCE
#include "../operations/operations.h"
#include <limits.h>
#include <signal.h>
#include <stdarg.h>
#include <stdio.h>
#include <stdlib.h>
#include <string.h>
#include <sys/mman.h>
#include <sys/wait.h>
#include <unistd.h>

enum { LINES = 1024, SHOWN_OF_EACH = 3, MOST_CHILDREN = 64, ROOM_FOR_FAULTS = 1 << 16 };

/* The lines of a file. */
typedef struct {
    char *line[LINES];
    size_t count;
} Lines;

typedef struct {
    unsigned long calls, disturbed, without_effect;
} Counts;

/* What a child has counted, and what it tells of faults. */
typedef struct {
    Counts counts[LINES];
    unsigned long seen_at[LINES], faults_of[LINES];
    unsigned long faults, with_followers, alone;
    size_t length;
    char told[ROOM_FOR_FAULTS];
} Share;

static Lines operations, places;
static char **files;
static size_t count_of_files, first_refused_file;
static size_t file, operation;
static size_t child, children;
static Share *shares, *own;
static bool is_started;
static uint64_t blocks_before;

/* Tells of a fault, as long as there is room. */
static void put_fault(Share *share, const char *form, ...) {
    va_list values;
    size_t room = sizeof share->told - share->length;
    share->faults++;
    va_start(values, form);
    int length = vsnprintf(share->told + share->length, room, form, values);
    va_end(values);
    share->length += length > 0 && (size_t)length < room ? (size_t)length : 0;
}

static void fault(const char *what, uint64_t growth, const char *where) {
    if (++own->faults_of[operation] > SHOWN_OF_EACH) {
        own->faults++;
        return;
    }
    put_fault(own, "FAULT: %s: %s, growth %lu refused %s, of %s%s%s\n",
              operations.line[operation], what, (unsigned long)growth,
              refuses_alone() ? "alone" : "with all that follow", files[file],
              *where != '\0' ? ", in " : "", where);
}

static void judge_without_effect(uint64_t growth) {
    char place[512], of_operation[768];
    name_place(place, sizeof place);
    snprintf(of_operation, sizeof of_operation, "%s: %s", operations.line[operation], place);
    own->counts[operation].without_effect++;
    if (!refuses_alone()) {
        fault("the undisturbed answer, and no Memory", growth, "");
        return;
    }
    for (size_t at = 0; at < places.count; at++) {
        if (strcmp(places.line[at], place) == 0 || strcmp(places.line[at], of_operation) == 0) {
            own->seen_at[at]++;
            return;
        }
    }
    fault("a refusal without effect at a place that is not listed", growth, place);
}

void told(uint32_t outcome, uint64_t growth) {
    switch (outcome) {
    case WRONG_UNDISTURBED:
        fault("the undisturbed call does not answer what its rule gives", growth, "");
        break;
    case RIGHT_UNDISTURBED:
        own->counts[operation].calls++;
        break;
    case MEMORY:
    case UNDISTURBED_ANSWER:
        own->counts[operation].disturbed++;
        *(refuses_alone() ? &own->alone : &own->with_followers) += 1;
        if (refusals() == 0) {
            fault("the growth was not asked for", growth, "");
        } else if (outcome == UNDISTURBED_ANSWER) {
            judge_without_effect(growth);
        }
        break;
    case OTHER_ANSWER:
        fault("neither Memory nor the undisturbed answer", growth, "");
        break;
    case CHANGED:
        fault("what the caller holds is not as it was", growth, "");
        break;
    default:
        fault("blocks were left over", growth, "");
    }
}

void take_answer(uint32_t answer) {
    bool is_lockfile = file < first_refused_file;
    if (live_blocks() != blocks_before) {
        fault("blocks were left over after the operation", 0, "");
    }
    if (answer == DONE || (answer != NO_OPERATION && answer != NO_ROOM && !is_lockfile)) {
        return;
    }
    fault(answer == NO_OPERATION ? "there is no such operation" : "it could not be set up", 0, "");
}

static size_t take_text(uint8_t *room, size_t size, const char *text) {
    size_t length = strlen(text);
    if (length > size) {
        fputs("sweep: a name is too long\n", stderr);
        exit(2);
    }
    memcpy(room, text, length);
    return length;
}

static size_t take_file(uint8_t *room, size_t size, const char *path) {
    FILE *opened = fopen(path, "rb");
    if (opened == NULL) {
        perror(path);
        exit(2);
    }
    size_t length = fread(room, 1, size, opened);
    fclose(opened);
    return length;
}

/* Goes to the child's next operation, of this file or of the next one. */
bool next_question(uint8_t *name, size_t name_room, uint8_t *path, size_t path_room, uint8_t *text,
                   size_t text_room, Lengths *lengths) {
    do {
        if (is_started && ++operation == operations.count) {
            operation = 0;
            file++;
        }
        is_started = true;
    } while (file < count_of_files && (operation + file) % children != child);
    if (file >= count_of_files) {
        return false;
    }
    lengths->name_length = take_text(name, name_room, operations.line[operation]);
    lengths->path_length = take_text(path, path_room, files[file]);
    lengths->text_length = take_file(text, text_room, files[file]);
    lengths->is_lockfile = file < first_refused_file;
    blocks_before = live_blocks();
    return true;
}

/* A call ended the child. This is told with the operation and the file. */
static void end_abnormally(int signal_number) {
    put_fault(own, "FAULT: %s: abnormal end by signal %d, of %s\n", operations.line[operation],
              signal_number, files[file]);
    _exit(1);
}

static void catch_signals(void) {
    static const int numbers[] = {SIGSEGV, SIGBUS, SIGILL, SIGFPE, SIGABRT, SIGTRAP};
    for (size_t at = 0; at < sizeof numbers / sizeof *numbers; at++) {
        signal(numbers[at], end_abnormally);
    }
}

static void read_lines(Lines *lines, const char *path) {
    FILE *opened = fopen(path, "r");
    char line[512];
    if (opened == NULL) {
        perror(path);
        exit(2);
    }
    while (fgets(line, sizeof line, opened) != NULL && lines->count < LINES) {
        line[strcspn(line, "#\n")] = '\0';
        size_t length = strlen(line);
        while (length > 0 && line[length - 1] == ' ') {
            line[--length] = '\0';
        }
        if (length > 0 && (lines->line[lines->count++] = strdup(line)) == NULL) {
            exit(2);
        }
    }
    fclose(opened);
}

static void take_words(int count, char **words) {
    files = calloc((size_t)count, sizeof *files);
    if (files == NULL) {
        exit(2);
    }
    bool is_refused = false;
    for (int at = 5; at < count; at++) {
        if (strcmp(words[at], "--refused") == 0) {
            is_refused = true;
            first_refused_file = count_of_files;
        } else if ((files[count_of_files++] = realpath(words[at], NULL)) == NULL) {
            perror(words[at]);
            exit(2);
        }
    }
    if (!is_refused) {
        first_refused_file = count_of_files;
    }
}

/* ---- the children */

/* Asks the questions of a child, in its folder. */
static void sweep(const char *folder, char **words) {
    char path[PATH_MAX];
    snprintf(path, sizeof path, "%s/%zu", folder, child);
    if (chdir(path) != 0) {
        perror(path);
        exit(2);
    }
    own = &shares[child];
    catch_signals();
    operations_main(1, words);
    exit(0);
}

static void sweep_all(const char *folder, char **words) {
    pid_t of[MOST_CHILDREN];
    for (child = 0; child < children; child++) {
        of[child] = fork();
        if (of[child] == 0) {
            sweep(folder, words);
        }
    }
    for (child = 0; child < children; child++) {
        int status = 0;
        bool is_waited = of[child] > 0 && waitpid(of[child], &status, 0) == of[child];
        if (!is_waited || status != 0) {
            put_fault(&shares[child], "FAULT: child %zu did not end well: status %d\n", child,
                      is_waited ? status : -1);
        }
    }
}

/* Adds what the children have counted to one share more, and prints what they tell. */
static Share *sum(void) {
    Share *all = &shares[children];
    for (const Share *each = shares; each < all; each++) {
        fwrite(each->told, 1, each->length, stdout);
        all->faults += each->faults;
        all->with_followers += each->with_followers;
        all->alone += each->alone;
        for (size_t at = 0; at < LINES; at++) {
            all->counts[at].calls += each->counts[at].calls;
            all->counts[at].disturbed += each->counts[at].disturbed;
            all->counts[at].without_effect += each->counts[at].without_effect;
            all->seen_at[at] += each->seen_at[at];
        }
    }
    return all;
}

/* Tells the totals. An operation that was never called is a fault, and so is a place that was never
   met. */
static void tell(Share *all) {
    unsigned long calls = 0;
    for (size_t at = 0; at < operations.count; at++) {
        calls += all->counts[at].calls;
        if (all->counts[at].calls == 0) {
            printf("FAULT: %s was never called\n", operations.line[at]);
            all->faults++;
        }
    }
    for (size_t at = 0; at < places.count; at++) {
        printf("without effect where it was refused alone: %lu in %s\n", all->seen_at[at],
               places.line[at]);
        if (all->seen_at[at] == 0) {
            printf("FAULT: no refusal was without effect in %s\n", places.line[at]);
            all->faults++;
        }
    }
    printf("%zu operations over %zu texts, %lu calls; growths refused with all that follow %lu, "
           "alone %lu; faults %lu\n",
           operations.count, count_of_files, calls, all->with_followers, all->alone, all->faults);
}

static void tell_each(const Share *all) {
    for (size_t at = 0; at < operations.count; at++) {
        const Counts *of = &all->counts[at];
        printf("%s: calls %lu, disturbed %lu, without effect %lu\n", operations.line[at],
               of->calls, of->disturbed, of->without_effect);
    }
}

int main(int count, char **words) {
    if (count < 6 || !read_names(__builtin_frame_address(0))) {
        fputs("usage: sweep FOLDER CHILDREN OPERATIONS PLACES FILE.. [--refused FILE..]\n", stderr);
        return 2;
    }
    children = strtoul(words[2], NULL, 10);
    read_lines(&operations, words[3]);
    read_lines(&places, words[4]);
    take_words(count, words);
    /* (one share more, of the sums) */
    size_t size = (MOST_CHILDREN + 1) * sizeof *shares;
    shares = mmap(NULL, size, PROT_READ | PROT_WRITE, MAP_SHARED | MAP_ANONYMOUS, -1, 0);
    if (children < 1 || children > MOST_CHILDREN || shares == MAP_FAILED) {
        fputs("sweep: it takes from 1 to 64 children, and memory for what they count\n", stderr);
        return 2;
    }
    sweep_all(words[1], words);
    Share *all = sum();
    if (getenv("SWEEP_EACH") != NULL) {
        tell_each(all);
    }
    tell(all);
    return all->faults > 0;
}
