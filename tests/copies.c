// The large copies of a step, counted by a memcpy of its own, and its time: a few steps of each engine. tests/copies compiles and runs it.
#include <stdint.h>
#include <stdio.h>
#include <stddef.h>
#include <time.h>

enum { LARGE = 400, FORM = 4096, ROUNDS = 3000, PASSES = 60, CALL_AT = 8 };

static unsigned long copies, bytes;

#ifdef COUNTS
// A copy of so many bytes is of a state, or of the rows of one.
static void *counted(void *to, const void *from, size_t n, int back) {
    copies += n >= LARGE;
    bytes += n >= LARGE ? n : 0;
    for (size_t i = 0; i < n; i++)
        ((volatile uint8_t *)to)[back ? n - 1 - i : i] = ((const uint8_t *)from)[back ? n - 1 - i : i];
    return to;
}

void *memcpy(void *restrict to, const void *restrict from, size_t n) {
    return counted(to, from, n, 0);
}

void *memmove(void *to, const void *from, size_t n) {
    return counted(to, from, n, (const uint8_t *)from < (uint8_t *)to);
}
#endif

typedef struct {
    _Alignas(16) uint8_t bytes[FORM];
} form;

// A struct goes by a pointer, as a result too; a slice as a pointer and a number of bytes.
typedef void step_function(form *stepped, const form *state, const uint8_t *call, uint8_t *room, size_t length);
typedef void empty_function(form *state, uint32_t clock);

step_function first_step __asm__("\"supervisor::step\""), second_step __asm__("\"second::step\"");
empty_function first_empty __asm__("\"supervisor::empty\""), second_empty __asm__("\"second::empty\"");
void read_record(form *read, const uint8_t *record, size_t length) __asm__("\"calls::reader::read_record\"");

// A state, and the place where the next one is put.
typedef struct {
    step_function *step;
    form forms[2];
    int now;
} engine;

static void started(engine *e, step_function *step, empty_function *empty) {
    e->step = step;
    e->now = 0;
    empty(&e->forms[0], 0);
}

static void taken(engine *e, const form *call) {
    static uint8_t room[124];
    e->step(&e->forms[1 - e->now], &e->forms[e->now], call->bytes + CALL_AT, room, sizeof room);
    e->now = 1 - e->now;
}

static form call_of(const uint8_t *record, size_t n) {
    form read;
    read_record(&read, record, n);
    return read;
}

static double now(void) {
    struct timespec t;
    clock_gettime(CLOCK_MONOTONIC, &t);
    return t.tv_sec * 1e9 + t.tv_nsec;
}

// Of a step, where the calls are made one after the other, again and again: with COUNTS copies and bytes copied, else the least time.
static void row(const char *name, const char *steps, engine *e, const form *calls, int n) {
    unsigned long before = copies, more = bytes;
    for (int i = 0; i < n; i++)
        taken(e, &calls[i]);
#ifdef COUNTS
    printf("| %s | %s | %.1f | %.0f", name, steps, (double)(copies - before) / n, (double)(bytes - more) / n);
#else
    double best = 1e18;
    for (int pass = 0; pass < PASSES; pass++) {
        double start = now();
        for (int i = 0; i < ROUNDS; i++)
            for (int k = 0; k < n; k++)
                taken(e, &calls[k]);
        double ns = (now() - start) / ((double)ROUNDS * n);
        best = ns < best ? ns : best;
    }
    printf(" | %.0f |", best);
#endif
    printf("\n");
}

static void rows(const char *name, step_function *step, empty_function *empty) {
    static engine e;
    form create = call_of((const uint8_t[]){1, 0, 2, 5, 1}, 5), lower = call_of((const uint8_t[]){1, 0, 2, 4, 0}, 5);
    form tick = call_of((const uint8_t[]){7, 0, 0}, 3);
    form meeting[3] = {
        call_of((const uint8_t[]){4, 0, 6, 1, 0, 0, 0, 0, 0}, 9),
        call_of((const uint8_t[]){3, 0, 7, 1, 1, 0, 0, 0, 0, 0}, 10),
        call_of((const uint8_t[]){5, 0, 0}, 3),
    };
    started(&e, step, empty);
    taken(&e, &create);
    row(name, "TICK with one task", &e, &tick, 1);
    taken(&e, &lower);
    row(name, "SELECT, CALL, END with two, each", &e, meeting, 3);
}

int main(void) {
    rows("first", first_step, first_empty);
    rows("second", second_step, second_empty);
}
