/* Mingdholep for C and C++: an ordered map to 32-bit values, in an array of words that the caller owns. There are two editions: keys of 32
   bits (mingdholep_make, mingdholep_run), and keys of 64 bits (mingdholep64_make, mingdholep64_run).

   Each edition is a static library of its own, for x86-64 Linux: `rt lib` in crates/host proves the first and writes
   out/libhost.a there, and in crates/host64 the second, out/libhost64.a. They need nothing but memset. A program may link both; the
   names do not clash. docs/RULES.md says exactly what each command does; this file says what a caller has to know.

   Slices. The words of a slice are given as the address of the first one and their number (words, not bytes). The words must be there and
   aligned as a uint32_t is, and must stay there until the call returns. Of a slice of 0 words nothing is read or written, and its address
   may be NULL (tried for each slice; the compiled code assumes nothing of an address, though the kit's guides do not say so). Two slices of
   one call must not overlap, and no other thread and no signal handler may touch them during the call, except that the list may be read.
   Nothing checks this: with slices that overlapped, calls were seen to crash, never to end, and to leave a damaged arena. What the words
   hold is another matter: it may be anything, and is checked.

   Nothing else. No call allocates, keeps a pointer, has state of its own or touches other memory, so calls on different arenas may run at
   the same time in different threads. An arena is plain words without addresses: between calls it may be moved, copied and stored.

   An arena does not say of which edition it is. Given to the other edition's run it is judged by that edition's rules alone: nearly always
   refused as DAMAGED, and never a fault, but where the words happen to be well formed there too, the run is done on what they say there.
   So keep the two apart.

   Stack. As an older kit compiled it, a run takes up to 16,608 bytes of stack, whatever the arena and the list, and a making takes 8. In a
   program that is linked lazily the first run takes up to 19,704, because the loader looks up memset on the same stack. So a thread of the
   smallest size, PTHREAD_STACK_MIN (16 KiB), is too small. Of the sizes tried 20 KiB was too small and 24 KiB was enough; 64 KiB is safe.

   Time. Every run first checks the whole arena, in time in proportion to its slots, and then does its commands. So a run of one command
   costs a check; put many commands into one run where you can. */

#ifndef MINGDHOLEP_H
#define MINGDHOLEP_H

/* Where a compiler has no standard headers, declare size_t, uint32_t and uint64_t yourself and define this before. */
#ifndef MINGDHOLEP_TYPES_DECLARED
#include <stddef.h>
#include <stdint.h>
#endif

#ifdef __cplusplus
extern "C" {
#endif

/* The most slots that an arena of either edition can have. */
#define MINGDHOLEP_MOST_SLOTS 4095

/* 32-bit keys: the words that an arena of n slots takes (4 of header and 4 for each slot), and the words of a command and of an answer. */
#define MINGDHOLEP_ARENA_WORDS(n) (4 + 4 * (n))
#define MINGDHOLEP_COMMAND_WORDS 3
#define MINGDHOLEP_ANSWER_WORDS 4

/* 64-bit keys: 4 words of header and 5 for each slot; a key is two words everywhere, the high one first. */
#define MINGDHOLEP64_ARENA_WORDS(n) (4 + 5 * (n))
#define MINGDHOLEP64_COMMAND_WORDS 4
#define MINGDHOLEP64_ANSWER_WORDS 5

/* The high and the low word of a 64-bit key, and the key of two words. */
#define MINGDHOLEP64_HIGH(key) ((uint32_t)((uint64_t)(key) >> 32))
#define MINGDHOLEP64_LOW(key) ((uint32_t)(key))
#define MINGDHOLEP64_KEY(high, low) ((uint64_t)(high) << 32 | (uint32_t)(low))

/* A command is its number, a key and a value: three words, or four with a 64-bit key. A word that it does not use may be anything. Every
   other number is no command, is answered UNKNOWN, and changes nothing. All keys and values are allowed; keys are ordered as unsigned
   numbers of 32 or of 64 bits. */
enum mingdholep_command {
    MINGDHOLEP_GET = 1,              /* key         the entry of the key:          FOUND, ABSENT */
    MINGDHOLEP_WRITE_IF_PRESENT = 2, /* key, value  a new value for a present key: REPLACED, ABSENT */
    MINGDHOLEP_NEXT = 3,             /* key         the first entry above the key: FOUND, ABSENT */
    MINGDHOLEP_PREV = 4,             /* key         the last entry below the key:  FOUND, ABSENT */
    MINGDHOLEP_INSERT = 5,           /* key, value  a new entry or a new value:    NEW, REPLACED, FULL */
    MINGDHOLEP_REMOVE = 6,           /* key         the key's entry goes:          REMOVED, ABSENT */
    MINGDHOLEP_MIN = 7,              /*             the first entry:               FOUND, ABSENT */
    MINGDHOLEP_MAX = 8,              /*             the last entry:                FOUND, ABSENT */
    MINGDHOLEP_TAKE_FIRST = 9,       /*             the first entry goes:          REMOVED, ABSENT */
    MINGDHOLEP_TAKE_LAST = 10,       /*             the last entry goes:           REMOVED, ABSENT */
    MINGDHOLEP_CLEAR = 11,           /*             all entries go:                COUNT */
    MINGDHOLEP_LENGTH = 12           /*             how many entries there are:    COUNT */
};

/* An answer is a code, a key, a value, and the number of comparisons that the command made: four words, or five with a 64-bit key. */
enum mingdholep_code {
    MINGDHOLEP_FOUND = 0,    /* key and value of the entry */
    MINGDHOLEP_ABSENT = 1,   /* 0, 0: there is no such entry */
    MINGDHOLEP_NEW = 2,      /* the key, 0: it was not there and is stored */
    MINGDHOLEP_REPLACED = 3, /* the key, and the value that it had before */
    MINGDHOLEP_REMOVED = 4,  /* key and value of the entry that is gone */
    MINGDHOLEP_FULL = 5,     /* 0, 0: the key is not there and every slot is in use; nothing is stored */
    MINGDHOLEP_COUNT = 6,    /* 0, and the number of entries before the command */
    MINGDHOLEP_UNKNOWN = 7   /* 0, 0: the number is no command */
};

/* What the calls below return. Where a call is refused, no word of any slice has changed. */
enum mingdholep_returned {
    MINGDHOLEP_DONE = 0,
    MINGDHOLEP_SIZE = 10,    /* making: the slots are 0 or more than 4,095 */
    MINGDHOLEP_SHORT = 11,   /* making: the arena has fewer words than that many slots take */
    MINGDHOLEP_DAMAGED = 12, /* a run: the words are no well-formed arena (none was made there, or something else wrote to it) */
    MINGDHOLEP_RAGGED = 13,  /* a run: the list's words are no multiple of a command's (3, or 4 with 64-bit keys) */
    MINGDHOLEP_NO_ROOM = 14  /* a run: there are too few answer words (4 for each command, or 5 with 64-bit keys) */
};

/* Makes an arena without entries in the first 4 + 4 * slots words of `arena`, whatever they held; `words` is how many there are, and those
   beyond stay as they are. Returns DONE, or refuses: SIZE first, then SHORT. */
uint32_t mingdholep_make(uint32_t *arena, size_t words, uint32_t slots);

/* Does the commands of `list` in order, list_words / 3 of them. Answer i goes to answers[4 * i] and the three words behind it; answer
   words that are left over stay as they are. A command that is answered ABSENT, FULL or UNKNOWN does not stop the run. Returns DONE, or
   refuses: DAMAGED first, then RAGGED, then NO_ROOM. `words` may be more than the arena takes, as when it was made. Lookups change the
   arena too: they splay the tree. */
uint32_t mingdholep_run(uint32_t *arena, size_t words, const uint32_t *list, size_t list_words, uint32_t *answers, size_t answer_words);

/* The same with 64-bit keys: an arena takes 4 + 5 * slots words; a command is number, high key word, low key word, value; answer i goes to
   answers[5 * i] and the four words behind it: code, high key word, low key word, value, comparisons. An answer without an entry has both
   key words 0. */
uint32_t mingdholep64_make(uint32_t *arena, size_t words, uint32_t slots);
uint32_t mingdholep64_run(uint32_t *arena, size_t words, const uint32_t *list, size_t list_words, uint32_t *answers, size_t answer_words);

#ifdef __cplusplus
}
#endif

#endif
