/* One run of a million commands, called from a thread with 256 KiB of stack, of either edition (edition.h). Each answer's code, key and
   value is compared with what a table of the live keys says, and the words behind arena and answers are seen to stay. Says what it did, and
   ends with 1 where a word is wrong. */
#include "edition.h"
typedef unsigned long pthread_t;
typedef union { char bytes[56]; long align; } pthread_attr_t;
int pthread_attr_init(pthread_attr_t *);
int pthread_attr_setstacksize(pthread_attr_t *, size_t);
int pthread_create(pthread_t *, const pthread_attr_t *, void *(*)(void *), void *);
int pthread_join(pthread_t, void **);

enum { SLOTS = MOST, KEYS = 8000, COMMANDS = 1000000, BEHIND = 8, STACK = 256 * 1024 };
#define TRIAL "one run of %d commands in %d bytes of stack"

static uint32_t arena[ARENA(SLOTS) + BEHIND], list[COMMAND * COMMANDS], answers[ANSWER * COMMANDS + BEHIND];
static uint32_t returned = FILL, places[COMMANDS];

/* xorshift, with a fixed start: every run of this program gives the same commands */
static uint32_t next_random(void) {
    static uint64_t s = 88172645463325252u;
    s ^= s << 13, s ^= s >> 7, s ^= s << 17;
    return (uint32_t)(s >> 16);
}

static void *call(void *unused) {
    returned = run(arena, sizeof arena / 4, list, sizeof list / 4, answers, sizeof answers / 4);
    return unused;
}

static void wrong(const char *what, size_t at) {
    printf(TRIAL ": WRONG, %s %zu\n", COMMANDS, STACK, what, at);
    exit(1);
}

/* The words of a key, which ascends with its place in the table. Of two words either may be the one in which keys differ. */
static void put_key(uint32_t *words, uint32_t place) {
    if (WIDTH == 1) words[0] = place;
    else words[0] = place / 64 * 34000000, words[WIDTH - 1] = place % 64 * 68000000;
}

/* All commands, gets and inserts most often, and two numbers that are no command. A clear is rare, so that the arena fills in between. */
static void write_list(void) {
    static const uint32_t numbers[32] = {1, 1, 1, 1, 1, 1, 1, 2, 2, 3, 3, 3, 4, 4, 4, 5, 5, 5, 5, 5, 5, 5, 5, 6, 6, 7, 8, 9, 10, 12, 0, 13};
    for (size_t i = 0; i < COMMANDS; i++) {
        uint32_t *command = list + COMMAND * i;
        command[0] = i % 50000 == 49999 ? 11 : numbers[next_random() % 32];
        places[i] = next_random() % KEYS;
        put_key(command + 1, places[i]);
        command[1 + WIDTH] = next_random();
    }
}

static uint32_t value[KEYS], size, full;
static char live[KEYS];

/* The first live key from `from` on in the given direction, or -1. */
static long nearest(long from, long step) {
    while (from >= 0 && from < KEYS && !live[from]) from += step;
    return from < KEYS ? from : -1;
}

/* The key whose entry the command is about, or -1: its own if it is live, the nearest above or below it, the first or the last. */
static long entry_of(uint32_t number, uint32_t key) {
    switch (number) {
    case 3: return nearest((long)key + 1, 1);
    case 4: return nearest((long)key - 1, -1);
    case 7: case 9: return nearest(0, 1);
    case 8: case 10: return nearest(KEYS - 1, -1);
    default: return live[key] ? (long)key : -1;
    }
}

/* One command on the table of live keys: the answer's code, key and value, by docs/RULES.md. The comparisons are not told here. */
static void answer_to(uint32_t number, uint32_t key, uint32_t given, uint32_t told[2 + WIDTH]) {
    uint32_t *told_value = told + 1 + WIDTH;
    long found = entry_of(number, key);
    told[0] = 1;
    for (size_t i = 1; i < 2 + WIDTH; i++) told[i] = 0;
    if (number == 0 || number > 12) {
        told[0] = 7;
    } else if (number >= 11) {
        told[0] = 6, *told_value = size;
        for (size_t k = 0; number == 11 && k < KEYS; k++) live[k] = 0;
        if (number == 11) size = 0;
    } else if (found >= 0) {
        told[0] = number == 2 || number == 5 ? 3 : number == 6 || number >= 9 ? 4 : 0;
        put_key(told + 1, (uint32_t)found), *told_value = value[found];
        if (told[0] == 3) value[found] = given;
        if (told[0] == 4) live[found] = 0, size--;
    } else if (number == 5 && size == SLOTS) {
        told[0] = 5, full++;
    } else if (number == 5) {
        told[0] = 2, put_key(told + 1, key);
        live[key] = 1, value[key] = given, size++;
    }
}

static void compare_all(void) {
    for (size_t i = 0; i < COMMANDS; i++) {
        uint32_t told[2 + WIDTH];
        answer_to(list[COMMAND * i], places[i], list[COMMAND * i + 1 + WIDTH], told);
        for (size_t j = 0; j < 2 + WIDTH; j++)
            if (answers[ANSWER * i + j] != told[j]) wrong("answer", i);
    }
    if (arena[2] != size) wrong("size", arena[2]);
    if (full == 0) wrong("times full", full);
}

int main(void) {
    pthread_attr_t attributes;
    pthread_t thread;
    for (size_t i = 0; i < sizeof arena / 4; i++) arena[i] = FILL;
    for (size_t i = 0; i < sizeof answers / 4; i++) answers[i] = FILL;
    write_list();
    if (make(arena, sizeof arena / 4, SLOTS) != 0) wrong("making", 0);
    if (pthread_attr_init(&attributes) != 0 || pthread_attr_setstacksize(&attributes, STACK) != 0) wrong("stack", STACK);
    if (pthread_create(&thread, &attributes, call, 0) != 0 || pthread_join(thread, 0) != 0) wrong("thread", 0);
    if (returned != 0) wrong("run returned", returned);
    compare_all();
    for (size_t i = ARENA(SLOTS); i < sizeof arena / 4; i++)
        if (arena[i] != FILL) wrong("word behind the arena", i);
    for (size_t i = ANSWER * COMMANDS; i < sizeof answers / 4; i++)
        if (answers[i] != FILL) wrong("word behind the answers", i);
    printf(TRIAL ": right\n", COMMANDS, STACK);
    return 0;
}
