/* For the trials in C, which are compiled once for each edition: WIDTH is 1 or 2, the words of a key. What the header for C names an
   edition's two calls, and how many words it gives its arenas, commands and answers. */
/* The kit's compiler brings no header files, so what is used of the C library is declared here, as it is on x86-64. */
typedef unsigned int uint32_t;
typedef unsigned long uint64_t, size_t;
int printf(const char *, ...);
void exit(int);

#define MINGDHOLEP_TYPES_DECLARED
#include "../include/mingdholep.h"

#if WIDTH == 1
#define make mingdholep_make
#define run mingdholep_run
#define ARENA(n) ((size_t)MINGDHOLEP_ARENA_WORDS(n))
enum { COMMAND = MINGDHOLEP_COMMAND_WORDS, ANSWER = MINGDHOLEP_ANSWER_WORDS };
#else
#define make mingdholep64_make
#define run mingdholep64_run
#define ARENA(n) ((size_t)MINGDHOLEP64_ARENA_WORDS(n))
enum { COMMAND = MINGDHOLEP64_COMMAND_WORDS, ANSWER = MINGDHOLEP64_ANSWER_WORDS };
#endif
/* ARENA(n) is the words of an arena, and where the slot of link n + 1 begins. */
enum { MOST = MINGDHOLEP_MOST_SLOTS, SLOT = 3 + WIDTH };
/* What stands in a word before it is lent, where nothing else has to; and the right word of a free slot. */
#define FILL 0xa5a5a5a5u
#define M 4294967295u
