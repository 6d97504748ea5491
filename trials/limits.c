/* The limits that docs/RULES.md sets, tried through the calls for C, of either edition (edition.h): sizes and lengths at their ends and one
   off, links at N and beyond, damaged arenas, arenas of the other edition, the order of the refusals. After each call every word that was
   lent is looked at, and the words behind those. A line for each case; it ends with 1 where one is wrong. */
#include "edition.h"

/* A key in a list of words, and no key. Of two words the low one falls as the high one rises, so that both have to be read. */
#if WIDTH == 1
#define KEY(k) (k)
#define NO_KEY 0
#else
#define KEY(k) (k), M - (k)
#define NO_KEY 0, 0
#endif
enum { DONE = 0, SIZE = 10, SHORT = 11, DAMAGED = 12, RAGGED = 13, NO_ROOM = 14 };
enum { INSERT = 5, MIN = 7, MAX = 8, LENGTH = 12 };
enum { ROOM = 4 + SLOT * (MOST + 1) + 8, ANSWERS = 12 * ANSWER };

static uint32_t arena[ROOM], arena_before[ROOM], answers[ANSWERS];
static int failed;

static int same(const uint32_t *a, const uint32_t *b, size_t n) {
    for (size_t i = 0; i < n; i++)
        if (a[i] != b[i]) return 0;
    return 1;
}

static void copy(uint32_t *to, const uint32_t *from, size_t n) {
    for (size_t i = 0; i < n; i++) to[i] = from[i];
}

static void fill(uint32_t *a, size_t n) {
    for (size_t i = 0; i < n; i++) a[i] = FILL;
}

static int is_filled(const uint32_t *a, size_t n) {
    for (size_t i = 0; i < n; i++)
        if (a[i] != FILL) return 0;
    return 1;
}

static void say(const char *what, size_t x, size_t y, uint32_t code, uint32_t due, int fine) {
    printf("limits, keys of %d bits, ", 32 * WIDTH);
    printf(what, x, y);
    if (code == due && fine) {
        printf(": right\n");
    } else if (code == due) {
        printf(": WRONG, a word is not as it should be\n");
    } else {
        printf(": WRONG, code %u and not %u\n", code, due);
    }
    failed |= code != due || !fine;
}

/* Making: "root link and size are 0, and all slots are chained, from slot 0 upwards". */

static int is_new(uint32_t n) {
    const uint32_t header[] = {n, 0, 0, 1};
    int fine = same(arena, header, 4);
    for (uint32_t s = 0; s < n; s++) {
        const uint32_t slot[] = {NO_KEY, 0, s + 1 < n ? s + 2 : 0, M};
        fine &= same(arena + ARENA(s), slot, SLOT);
    }
    return fine && is_filled(arena + ARENA(n), ROOM - ARENA(n));
}

static void makings(void) {
    static const struct { uint32_t n; size_t words; uint32_t due; } cases[] = {
        {0, ROOM, SIZE}, {0, 4, SIZE}, {0, 3, SIZE}, {0, 0, SIZE},
        {1, ARENA(1) + 1, DONE}, {1, ARENA(1), DONE}, {1, ARENA(1) - 1, SHORT}, {1, 4, SHORT}, {1, 0, SHORT},
        {2, ARENA(2), DONE}, {2, ARENA(2) - 1, SHORT},
        {MOST, ARENA(MOST) + 1, DONE}, {MOST, ARENA(MOST), DONE}, {MOST, ARENA(MOST) - 1, SHORT},
        {MOST + 1, ARENA(MOST + 1), SIZE}, {MOST + 1, ARENA(MOST + 1) - 1, SIZE}, {M, ROOM, SIZE}, {M, 0, SIZE},
    };
    for (size_t i = 0; i < sizeof cases / sizeof *cases; i++) {
        fill(arena, ROOM);
        uint32_t code = make(arena, cases[i].words, cases[i].n);
        int fine = cases[i].due == DONE ? is_new(cases[i].n) : is_filled(arena, ROOM);
        say("making %zu slots in %zu words", cases[i].n, cases[i].words, code, cases[i].due, fine);
    }
}

/* The arena as it stands, so many words of it lent, is to be refused, or accepted, by a run of no commands and by a run of one. Nothing
   changes in either case. */
static void judge(const char *what, size_t words, int accepted) {
    const uint32_t length[COMMAND] = {LENGTH}, insert[COMMAND] = {INSERT, 7};
    const uint32_t count[ANSWER] = {[0] = 6, [1 + WIDTH] = arena[2]};
    uint32_t due = accepted ? DONE : DAMAGED;
    copy(arena_before, arena, ROOM);
    fill(answers, ANSWERS);
    uint32_t code = run(arena, words, 0, 0, 0, 0);
    int fine = same(arena, arena_before, ROOM) && is_filled(answers, ANSWERS);
    if (code == due) {
        code = run(arena, words, accepted ? length : insert, COMMAND, answers, ANSWERS);
        fine &= same(arena, arena_before, ROOM);
        fine &= accepted ? same(answers, count, ANSWER) && is_filled(answers + ANSWER, ANSWERS - ANSWER) : is_filled(answers, ANSWERS);
    }
    say(what, words, 0, code, due, fine);
}

/* A well-formed arena of 8 slots, and the words of a slot behind them:

              40
          20      60
        10  30
              35          free: 7, then 8

   The numbers are keys; the nodes have the links 1 to 6, from top to bottom and left to right. */

enum { N = 8, HIGH = 0, LOW = WIDTH - 1, VALUE = WIDTH, LEFT, RIGHT };

static void node(size_t link, uint32_t key, uint32_t value, uint32_t left, uint32_t right) {
    const uint32_t slot[] = {KEY(key), value, left, right};
    copy(arena + ARENA(link - 1), slot, SLOT);
}

static void free_slot(size_t link, uint32_t next) {
    const uint32_t slot[] = {NO_KEY, 0, next, M};
    copy(arena + ARENA(link - 1), slot, SLOT);
}

static void sound(void) {
    const uint32_t header[] = {N, 1, 6, 7};
    fill(arena, ROOM);
    copy(arena, header, 4);
    node(1, 40, 400, 2, 3);
    node(2, 20, 200, 4, 5);
    node(3, 60, 600, 0, 0);
    node(4, 10, 100, 0, 0);
    node(5, 30, 300, 0, 6);
    node(6, 35, 350, 0, 0);
    free_slot(7, 8);
    free_slot(8, 0);
}

/* What is changed in that arena: a word of the header, a node, a free slot, one word of a slot. Link 9 leads to the words behind the slots:
   so that nothing but the bound refuses a link of N + 1, they hold what its slot would have to hold. */
struct change { enum { NOTHING, A_HEAD, A_NODE, A_FREE, A_WORD } what; uint32_t at, word, value, left, right; };
#define HEAD(at, word) {A_HEAD, at, word, 0, 0, 0}
#define NODE(link, key, value, left, right) {A_NODE, link, key, value, left, right}
#define FREE(link, next) {A_FREE, link, next, 0, 0, 0}
#define WORD(link, field, value) {A_WORD, link, field, value, 0, 0}

static void apply(const struct change *c) {
    switch (c->what) {
    case NOTHING: break;
    case A_HEAD: arena[c->at] = c->word; break;
    case A_NODE: node(c->at, c->word, c->value, c->left, c->right); break;
    case A_FREE: free_slot(c->at, c->word); break;
    case A_WORD: arena[ARENA(c->at - 1) + c->word] = c->value; break;
    }
}

static void damages(void) {
    static const struct { const char *what; int accepted; struct change changes[4]; } cases[] = {
        {"nothing wrong", 1, {{0}}},
        {"root link N", 1, {FREE(1, 0), FREE(7, 1), NODE(8, 40, 400, 2, 3), HEAD(1, 8)}},
        {"root link N + 1", 0, {NODE(9, 40, 400, 2, 3), HEAD(1, 9)}},
        {"root link 4294967295", 0, {HEAD(1, M)}},
        {"left link N", 1, {FREE(4, 0), FREE(7, 4), NODE(8, 10, 100, 0, 0), WORD(2, LEFT, 8)}},
        {"left link N + 1", 0, {NODE(9, 10, 100, 0, 0), WORD(2, LEFT, 9)}},
        {"left link 4294967295", 0, {WORD(2, LEFT, M)}},
        {"right link N", 1, {FREE(6, 0), FREE(7, 6), NODE(8, 35, 350, 0, 0), WORD(5, RIGHT, 8)}},
        {"right link N + 1", 0, {NODE(9, 35, 350, 0, 0), WORD(5, RIGHT, 9)}},
        {"right link 4294967295", 0, {WORD(5, RIGHT, M)}},
        {"first free link N", 1, {HEAD(3, 8), FREE(8, 7), FREE(7, 0)}},
        {"first free link N + 1", 0, {HEAD(3, 9), FREE(9, 7), FREE(7, 0)}},
        {"first free link 4294967295", 0, {HEAD(3, M)}},
        {"next free link N", 1, {FREE(7, 8)}},
        {"next free link N + 1", 0, {FREE(7, 9), FREE(9, 0)}},
        {"next free link 4294967295", 0, {FREE(7, M)}},
        {"chain through the tree", 0, {FREE(7, 3)}},
        {"node whose words are 0, as a free slot's are", 1, {WORD(4, HIGH, 0), WORD(4, LOW, 0), WORD(4, VALUE, 0)}},
        {"chain through such a node", 0, {WORD(4, HIGH, 0), WORD(4, LOW, 0), WORD(4, VALUE, 0), FREE(7, 4)}},
        {"chain that goes round", 0, {FREE(8, 7)}},
        {"chain one short", 0, {FREE(7, 0)}},
        {"no chain", 0, {HEAD(3, 0)}},
        {"high key word left in a free slot", 0, {WORD(8, HIGH, 1)}},
        {"low key word left in a free slot", 0, {WORD(8, LOW, 1)}},
        {"value left in a free slot", 0, {WORD(8, VALUE, 1)}},
        {"free slot without its mark", 0, {WORD(8, RIGHT, 0)}},
        {"free slot in the middle of the chain without its mark", 0, {WORD(7, RIGHT, M - 1)}},
        {"slot met twice, sizes alike", 0, {HEAD(2, 5), WORD(2, RIGHT, 4), FREE(5, 0), FREE(8, 5)}},
        {"cycle to the root", 0, {WORD(6, RIGHT, 1)}},
        {"cycle of one slot", 0, {WORD(6, LEFT, 6)}},
        {"key out of order deep down", 0, {NODE(6, 45, 350, 0, 0)}},
        {"key of the root again deep down", 0, {NODE(6, 40, 350, 0, 0)}},
        {"key just below the root's deep down", 1, {NODE(6, 40, 350, 0, 0), WORD(6, LOW, WIDTH == 1 ? 39 : M - 41)}},
        {"key just above the root's deep down", 0, {NODE(6, 40, 350, 0, 0), WORD(6, LOW, WIDTH == 1 ? 41 : M - 39)}},
        {"high key word of the root's deep down", WIDTH == 2, {WORD(6, LOW, 0), WORD(6, HIGH, 40)}},
        {"first key 0 and last key of all ones", 1, {WORD(4, HIGH, 0), WORD(4, LOW, 0), WORD(3, HIGH, M), WORD(3, LOW, M)}},
        {"size one less", 0, {HEAD(2, 5)}},
        {"size one more", 0, {HEAD(2, 7)}},
        {"size one more, chain one short", 0, {HEAD(2, 7), FREE(7, 0)}},
        {"size one less, chain one more", 0, {HEAD(2, 5), FREE(8, 6)}},
        {"size N + 1", 0, {HEAD(2, 9)}},
        {"size 4294967295", 0, {HEAD(2, M)}},
        {"N 0", 0, {HEAD(0, 0)}},
        {"N 7", 0, {HEAD(0, 7)}},
        {"N 9", 0, {HEAD(0, 9)}},
        {"N 4096", 0, {HEAD(0, 4096)}},
        {"N 4294967295", 0, {HEAD(0, M)}},
    };
    for (size_t i = 0; i < sizeof cases / sizeof *cases; i++) {
        sound();
        for (size_t j = 0; j < 4; j++) apply(&cases[i].changes[j]);
        judge(cases[i].what, ROOM, cases[i].accepted);
    }
}

/* How many words of an arena are lent; the largest arena, and one with a slot more, which is well formed but for its N. */
static void lengths(void) {
    static const size_t words[] = {0, 1, 3, 4, ARENA(N) - 1, ARENA(N), ARENA(N) + 1};
    for (size_t i = 0; i < sizeof words / sizeof *words; i++) {
        sound();
        judge("8 slots in %zu words", words[i], words[i] >= ARENA(N));
    }
    fill(arena, ROOM);
    make(arena, ROOM, MOST);
    judge("4095 slots in %zu words", ARENA(MOST), 1);
    judge("4095 slots in %zu words", ARENA(MOST) - 1, 0);
    free_slot(MOST, MOST + 1);
    free_slot(MOST + 1, 0);
    arena[0] = MOST + 1;
    judge("4096 slots in %zu words", ARENA(MOST + 1), 0);
    fill(arena, ROOM);
    make(arena, ROOM, 1);
    judge("1 slot in %zu words", ARENA(1), 1);
    judge("1 slot in %zu words", ARENA(1) - 1, 0);
}

/* "An arena of one edition given to the other is judged by the other's rules alone": words, and whether either edition accepts them. */
static void others(void) {
    static const struct { const char *what; int accepted[2]; size_t words; uint32_t arena[16]; } cases[] = {
        {"1 slot made for keys of 32 bits", {1, 0}, 9, {1, 0, 0, 1, 0, 0, 0, M, 0}},
        {"2 slots made for keys of 32 bits", {1, 0}, 14, {2, 0, 0, 1, 0, 0, 2, M, 0, 0, 0, M, 0, 0}},
        {"1 slot made for keys of 64 bits", {0, 1}, 9, {1, 0, 0, 1, 0, 0, 0, 0, M}},
        {"2 slots made for keys of 64 bits", {0, 1}, 14, {2, 0, 0, 1, 0, 0, 0, 2, M, 0, 0, 0, 0, M}},
        {"the key 5 of 32 bits, value 50, in 8 words", {1, 0}, 8, {1, 1, 1, 0, 5, 50, 0, 0, 0}},
        {"the key 5 of 32 bits, value 50, and a 0", {1, 1}, 9, {1, 1, 1, 0, 5, 50, 0, 0, 0}},
        {"the key 5 of 32 bits, value 50, and a 1", {1, 0}, 9, {1, 1, 1, 0, 5, 50, 0, 0, 1}},
        {"the key 5 7 of 64 bits, value 0", {1, 1}, 9, {1, 1, 1, 0, 5, 7, 0, 0, 0}},
        {"the key 5 7 of 64 bits, value 9", {0, 1}, 9, {1, 1, 1, 0, 5, 7, 9, 0, 0}},
        {"5 with 9 above it, of 32 bits", {1, 0}, 14, {2, 2, 2, 0, 5, 50, 0, 0, 9, 90, 1, 0, 0, 0}},
        {"5 7 with 9 1 above it, of 64 bits", {0, 1}, 14, {2, 2, 2, 0, 5, 7, 50, 0, 0, 9, 1, 90, 1, 0}},
        {"an arena of both", {1, 1}, 14, {2, 1, 2, 0, 5, 50, 2, 0, 2, 9, 0, 0, 0, 0}},
    };
    for (size_t i = 0; i < sizeof cases / sizeof *cases; i++) {
        fill(arena, ROOM);
        copy(arena, cases[i].arena, cases[i].words);
        judge(cases[i].what, cases[i].words, cases[i].accepted[WIDTH - 1]);
    }
    /* The last of them, as each edition reads it. */
    static const uint32_t list[2 * COMMAND] = {[0] = MIN, [COMMAND] = MAX};
    static const uint32_t told[2][10] = {{0, 2, 9, 0, 0, 5, 50, 0}, {0, 5, 50, 2, 0, 0, 9, 0, 0, 0}};
    copy(arena_before, arena, ROOM);
    fill(answers, ANSWERS);
    uint32_t code = run(arena, 14, list, 2 * COMMAND, answers, 2 * ANSWER);
    int fine = same(answers, told[WIDTH - 1], 2 * ANSWER) && same(arena, arena_before, ROOM);
    say("an arena of both, as this edition reads it", 0, 0, code, DONE, fine);
}

/* Lists and rooms for answers, in an arena of 2 slots, with words behind it. The arenas and answers are P1 to P9 of docs/RULES.md. */

enum { TWO = 4 + 2 * SLOT };
static const uint32_t p1[TWO] = {2, 0, 0, 1, NO_KEY, 0, 2, M, NO_KEY, 0, 0, M};
static const uint32_t p2[TWO] = {2, 1, 1, 2, KEY(5), 50, 0, 0, NO_KEY, 0, 0, M};
static const uint32_t p3[TWO] = {2, 2, 2, 0, KEY(5), 50, 0, 0, KEY(9), 90, 1, 0};
static const uint32_t p9[TWO] = {2, 1, 1, 2, KEY(1), 10, 0, 0, NO_KEY, 0, 0, M};
static const uint32_t *const after[] = {p1, p2, p3};

/* So many words of two inserts, with so many words for answers; a size of 1 makes the arena a damaged one. */
static void list_case(int is_damaged, size_t given, size_t room, uint32_t due) {
    static const uint32_t list[] = {INSERT, KEY(5), 50, INSERT, KEY(9), 90};
    static const uint32_t told[] = {2, KEY(5), 0, 0, 2, KEY(9), 0, 2};
    size_t done = due == DONE ? given / COMMAND : 0;
    fill(arena, ROOM);
    fill(answers, ANSWERS);
    copy(arena, p1, TWO);
    arena[2] = (uint32_t)is_damaged;
    uint32_t code = run(arena, TWO + 4, list, given, answers, room);
    if (is_damaged && arena[2] == 1) arena[2] = 0;
    int fine = same(arena, after[done], TWO) && is_filled(arena + TWO, ROOM - TWO);
    fine &= same(answers, told, done * ANSWER) && is_filled(answers + done * ANSWER, ANSWERS - done * ANSWER);
    say(is_damaged ? "damaged, a list of %zu words, room of %zu" : "a list of %zu words, room of %zu", given, room, code, due, fine);
}

static void lists(void) {
    for (size_t given = 0; given <= 2 * COMMAND; given++)
        list_case(0, given, ANSWERS, given % COMMAND == 0 ? DONE : RAGGED);
    list_case(0, 0, 0, DONE);
    for (size_t n = 1; n <= 2; n++) {
        list_case(0, n * COMMAND, n * ANSWER, DONE);
        list_case(0, n * COMMAND, n * ANSWER - 1, NO_ROOM);
        list_case(0, n * COMMAND, 0, NO_ROOM);
    }
    /* Where several refusals fit, the first in the order of docs/RULES.md is given. */
    list_case(0, COMMAND + 1, ANSWER - 1, RAGGED);
    list_case(0, COMMAND - 1, 0, RAGGED);
    list_case(1, 0, 0, DAMAGED);
    list_case(1, COMMAND, ANSWERS, DAMAGED);
    list_case(1, COMMAND + 1, ANSWERS, DAMAGED);
    list_case(1, COMMAND, ANSWER - 1, DAMAGED);
    list_case(1, COMMAND + 1, ANSWER - 1, DAMAGED);
}

/* FULL and UNKNOWN do not stop a run: P2 to P9 in one list, with three numbers that are no command behind the insert that is answered
   FULL. */
static void middle(void) {
    static const uint32_t list[] = {
        5, KEY(5), 50, 5, KEY(9), 90, 5, KEY(7), 70, 0, KEY(5), 1, 13, KEY(5), 2, M, KEY(5), 3,
        5, KEY(9), 91, 6, KEY(5), 0, 5, KEY(1), 10, 3, KEY(1), 0, 10, KEY(0), 0,
    };
    static const uint32_t told[] = {
        2, KEY(5), 0, 0, 2, KEY(9), 0, 2, 5, NO_KEY, 0, 4, 7, NO_KEY, 0, 0, 7, NO_KEY, 0, 0, 7, NO_KEY, 0, 0,
        3, KEY(9), 90, 4, 4, KEY(5), 50, 4, 2, KEY(1), 0, 2, 0, KEY(9), 91, 3, 4, KEY(9), 91, 0,
    };
    fill(arena, ROOM);
    fill(answers, ANSWERS);
    copy(arena, p1, TWO);
    uint32_t code = run(arena, TWO + 4, list, sizeof list / 4, answers, ANSWERS);
    int fine = same(arena, p9, TWO) && is_filled(arena + TWO, ROOM - TWO);
    fine &= same(answers, told, sizeof told / 4) && is_filled(answers + sizeof told / 4, ANSWERS - sizeof told / 4);
    say("FULL and UNKNOWN in the middle of a run", 0, 0, code, DONE, fine);
}

int main(void) {
    makings();
    damages();
    lengths();
    others();
    lists();
    middle();
    return failed;
}
