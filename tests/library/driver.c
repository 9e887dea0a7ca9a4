/* Puts the cases of its standard input to an engine of the library and writes what it answers; tests/reference/replies.rs says how a
   case and a reply are laid out. The engine is the word in front of its functions' names, card or second. It takes two functions of the C library
   and none of its headers, so that the kit's compiler alone builds it. */
#include "fuzgerlint.h"

#ifndef ENGINE
#define ENGINE card
#endif
#define JOINED(engine, name) engine##_##name
#define NAMED(engine, name) JOINED(engine, name)
#define OWN(name) NAMED(ENGINE, name)

long read(int file, void *to, size_t bytes);
long write(int file, const void *from, size_t bytes);

/* The bytes of a state, by the engine's word. */
enum { card_state = CARD_STATE, second_state = CARD_SECOND_STATE, STATE = OWN(state) };
enum { CASE = STATE + 17, BEFORE = 165 };

struct reply {
    uint8_t refusal, sound, answer[9], state[STATE + 9], room[255], questions[8];
};

static int whole(uint8_t *to, size_t bytes) {
    size_t have = 0;
    while (have < bytes) {
        long more = read(0, to + have, bytes - have);
        if (more <= 0) return 0;
        have += (size_t)more;
    }
    return 1;
}

static int all(const uint8_t *from, size_t bytes) {
    while (bytes > 0) {
        long more = write(1, from, bytes);
        if (more <= 0) return 0;
        from += more;
        bytes -= (size_t)more;
    }
    return 1;
}

static void fill(struct reply *r, const uint8_t *state) {
    uint8_t *bytes = (uint8_t *)r;
    for (size_t i = 0; i < sizeof *r; i++) bytes[i] = BEFORE;
    for (size_t i = 0; i < STATE; i++) r->state[i] = state[i];
}

static void put(struct reply *r, const uint8_t *given) {
    size_t state = (size_t)given[0] << 8 | given[1];
    uint8_t *q = r->questions;
    r->sound = OWN(sound)(r->state, state);
    q[0] = OWN(count)(r->state, state, given[5], given[6], q + 1, 1);
    q[2] = OWN(callable)(r->state, state, given[5], q + 3, 1);
    q[4] = OWN(running)(r->state, state, q + 5, 1);
    q[6] = OWN(priority)(r->state, state, given[5], q + 7, 1);
    r->refusal = OWN(step)(r->state, state, given + 7, given[4], r->room, given[2], r->answer, given[3]);
}

int main(void) {
    static uint8_t one[CASE];
    static struct reply r;
    while (whole(one, CASE)) {
        fill(&r, one);
        put(&r, one + STATE);
        if (!all((const uint8_t *)&r, sizeof r)) return 1;
    }
    return 0;
}
