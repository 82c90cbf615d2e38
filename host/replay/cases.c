/* What the programs that replay cases share; cases.h says what each function does. */
#define _DEFAULT_SOURCE
#include "cases.h"

#include <errno.h>
#include <inttypes.h>
#include <signal.h>
#include <stdlib.h>
#include <string.h>
#include <sys/mman.h>

enum {
    GUARD = 1 << 16, /* bytes after a lent slice that nobody may touch */
    PAGE = 1 << 16,
    MARGIN = 128,   /* bytes before a loan that are looked at too */
    MOST_SHOWN = 20 /* differences printed */
};

static uint64_t passed, failed, shown;

/* The case that runs, for a call that does not come back. */
static const struct place *current;

/* Ends the program with one failure more. */
static void stop(void) {
    printf("%" PRIu64 " passed, %" PRIu64 " failed\n", passed, failed + 1);
    fflush(stdout);
    _Exit(1);
}

static void no_memory(void) {
    printf("no memory for the cases: %s\n", strerror(errno));
    stop();
}

struct shelf new_shelf(size_t room) {
    uint8_t *first = mmap(NULL, room + GUARD, PROT_READ | PROT_WRITE, MAP_PRIVATE | MAP_ANONYMOUS, -1, 0);
    if (first == MAP_FAILED || mprotect(first + room, GUARD, PROT_NONE) != 0) {
        no_memory();
    }
    return (struct shelf){first + room};
}

uint8_t *new_memory(size_t room) {
    uint8_t *first = malloc(room);
    if (first == NULL) {
        no_memory();
    }
    return first;
}

struct slice lend(struct shelf shelf, size_t length) {
    return (struct slice){shelf.end - length, length};
}

uint64_t hash(struct slice slice) {
    uint64_t hash = UINT64_C(0xCBF29CE484222325);
    for (size_t i = 0; i < slice.length; i++) {
        hash = (hash ^ slice.first[i]) * UINT64_C(0x100000001B3);
    }
    return hash;
}

unsigned ways(struct slice slice) {
    return slice.length == 0 ? 2 : 1;
}

uint8_t *lent(struct slice slice, unsigned way) {
    return way == 0 ? slice.first : NULL;
}

void fault(struct source *source, const char *what) {
    if (!source->broken) {
        printf("%s: %s\n", source->name, what);
    }
    source->broken = true;
}

void take(struct source *source, uint8_t *into, size_t length) {
    if (!source->broken && fread(into, 1, length, source->stream) != length) {
        fault(source, ferror(source->stream) ? strerror(errno) : "ends too early");
    }
    if (source->broken) {
        memset(into, 0, length);
    }
}

uint64_t take_number(struct source *source, unsigned width) {
    uint8_t bytes[8];
    uint64_t number = 0;
    take(source, bytes, width);
    for (unsigned i = width; i > 0; i--) {
        number = number << 8 | bytes[i - 1];
    }
    return number;
}

size_t take_length(struct source *source, unsigned width, size_t most) {
    uint64_t length = take_number(source, width);
    if (length > most) {
        fault(source, "has a length beyond its limit");
        return 0;
    }
    return (size_t)length;
}

struct slice take_bytes(struct source *source, struct shelf shelf, size_t room) {
    struct slice bytes = lend(shelf, take_length(source, 4, room));
    take(source, bytes.first, bytes.length);
    return bytes;
}

static void take_name(struct source *source, char name[MOST_NAME + 1]) {
    size_t length = take_length(source, 4, MOST_NAME);
    take(source, (uint8_t *)name, length);
    name[length] = '\0';
}

static void print_place(const struct place *place) {
    printf("%s %" PRIu64 " (%s)", place->kind, place->number, place->name);
    if (place->operation != 0) {
        printf(", operation %" PRIu32 " (%c)", place->operation, place->call);
    }
    printf(": ");
}

bool begin_difference(const struct place *place) {
    if (shown == MOST_SHOWN) {
        return false;
    }
    shown++;
    print_place(place);
    return true;
}

struct loan new_loan(const char *name, size_t room) {
    return (struct loan){name, new_shelf(room + PAGE), {NULL, 0}, new_memory(room + PAGE)};
}

void fill(uint8_t *first, size_t length) {
    for (size_t i = 0; i < length; i++) {
        first[i] = (uint8_t)(0xA5 ^ i * 29 ^ i >> 8);
    }
}

void lend_filled(struct loan *loan, size_t length) {
    loan->slice = lend(loan->shelf, length);
    fill(loan->slice.first, length);
}

void keep(struct loan *loan) {
    uint8_t *margin = loan->slice.first - MARGIN;
    fill(margin, MARGIN);
    memcpy(loan->copy, margin, MARGIN + loan->slice.length);
}

bool is_untouched(const struct place *place, const struct loan *loan, size_t written) {
    const uint8_t *came = loan->slice.first - MARGIN;
    size_t after = MARGIN + written;
    size_t length = loan->slice.length - written;
    if (memcmp(came, loan->copy, MARGIN) == 0 && memcmp(came + after, loan->copy + after, length) == 0) {
        return true;
    }
    if (begin_difference(place)) {
        printf("%s: bytes changed that were to stay\n", loan->name);
    }
    return false;
}

static void on_signal(int signal) {
    if (current != NULL) {
        print_place(current);
    }
    printf("ended by signal %d\n", signal);
    stop();
}

void catch_signals(void) {
    signal(SIGSEGV, on_signal);
    signal(SIGBUS, on_signal);
    signal(SIGILL, on_signal);
    signal(SIGFPE, on_signal);
}

/* The cases after the file's head. */
static void replay_cases(struct source *source, const char *kind, run_case *run) {
    uint64_t seed = take_number(source, 8);
    uint64_t cases = take_number(source, 8);
    if (!source->broken) {
        printf("%s: seed %" PRIu64 ", %" PRIu64 " cases\n", source->name, seed, cases);
    }
    for (uint64_t number = 1; number <= cases && !source->broken; number++) {
        struct place place = {.kind = kind, .number = number};
        take_name(source, place.name);
        current = &place;
        bool same = run(source, &place);
        current = NULL;
        if (!source->broken) {
            passed += same;
            failed += !same;
        }
    }
    if (!source->broken && fgetc(source->stream) != EOF) {
        fault(source, "goes on after its last case");
    }
    if (ferror(source->stream)) {
        fault(source, strerror(errno));
    }
}

void replay_file(const char *name, const char *kind, const char mark[8], run_case *run) {
    uint8_t head[8];
    struct source source = {fopen(name, "rb"), name, false};
    if (source.stream == NULL) {
        fault(&source, strerror(errno));
        failed++;
        return;
    }
    take(&source, head, sizeof head);
    if (memcmp(head, mark, sizeof head) != 0) {
        fault(&source, "is no file of such cases");
    }
    replay_cases(&source, kind, run);
    failed += source.broken;
    fclose(source.stream);
}

int finish(void) {
    printf("%" PRIu64 " passed, %" PRIu64 " failed\n", passed, failed);
    return failed != 0;
}
