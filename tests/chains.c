// The time of the soundness check, and of the question for a priority, with 31 tasks of which so many are held in a chain. tests/chains compiles
// and runs it.
#include <stdint.h>
#include <stdio.h>
#include <stddef.h>
#include <time.h>
#include "fuzgerlint.h"

enum { ROUNDS = 500, PASSES = 200, TASKS = 31 };

// Room for a struct. A struct goes by a pointer, as a result too; a slice as a pointer and a number of bytes.
typedef struct {
    _Alignas(16) uint8_t bytes[4096];
} form;

uint8_t empty(uint8_t *, size_t, uint32_t) __asm__("\"card::card_empty\"");
uint8_t step(uint8_t *, size_t, const uint8_t *, size_t, uint8_t *, size_t, uint8_t *, size_t) __asm__("\"card::card_step\"");
uint8_t priority(const uint8_t *, size_t, uint8_t, uint8_t *, size_t) __asm__("\"card::card_priority\"");
void state_in(form *, const uint8_t *, size_t) __asm__("\"codec::state_in\"");
uint8_t is_sound(const form *) __asm__("\"soundness::is_sound\"");

static uint8_t state[CARD_STATE], room[CARD_ROOM], answer[CARD_ANSWER];
static volatile unsigned seen;

static void take(const uint8_t *record, size_t length) {
    if (step(state, sizeof state, record, length, room, sizeof room, answer, sizeof answer)) printf("refused %d\n", answer[0]);
}

// Task 1 is held by task 2, that by task 3, and on.
static void chain(int held) {
    static const uint8_t create[] = {CARD_CREATE, 0, 2, 4, 1}, delay[] = {CARD_DELAY, 0, 4, 0, 0, 0, 1};
    static const uint8_t accept[] = {CARD_SELECT, 0, 6, 1, 0, 0, 0, 0, 0}, tick[] = {CARD_TICK, 0, 0};
    empty(state, sizeof state, 0);
    for (int i = 0; i < TASKS; i++) take(create, sizeof create);
    take(delay, sizeof delay);
    for (int i = 1; i < TASKS; i++) take(accept, sizeof accept);
    take(tick, sizeof tick);
    for (int i = 0; i < held; i++) {
        uint8_t call[] = {CARD_CALL, 0, 7, (uint8_t)(i + 2), 1, 0, 0, 0, 0, 0};
        take(call, sizeof call);
    }
}

static double now(void) {
    struct timespec t;
    clock_gettime(CLOCK_MONOTONIC, &t);
    return t.tv_sec * 1e9 + t.tv_nsec;
}

int main(void) {
    static const int lengths[] = {0, 1, 5, 15, 30};
    printf("| held | the check, ns | `card_priority` of the top, ns |\n|---|---|---|\n");
    for (size_t k = 0; k < sizeof lengths / sizeof *lengths; k++) {
        double check = 1e9, question = 1e9;
        form f;
        chain(lengths[k]);
        state_in(&f, state, sizeof state);
        if (!is_sound(&f)) printf("not sound\n");
        for (int p = 0; p < PASSES; p++) {
            double t = now();
            for (int i = 0; i < ROUNDS; i++) seen += is_sound(&f);
            double u = now();
            for (int i = 0; i < ROUNDS; i++) seen += priority(state, sizeof state, (uint8_t)(lengths[k] + 1), answer, 1);
            double v = now();
            if ((u - t) / ROUNDS < check) check = (u - t) / ROUNDS;
            if ((v - u) / ROUNDS < question) question = (v - u) / ROUNDS;
        }
        printf("| %d | %.0f | %.0f |\n", lengths[k], check, question);
    }
    return 0;
}
