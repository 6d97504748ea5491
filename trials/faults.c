/* A line program among failures. A program that loads this before the C library gets the read, write and nanosleep that stand here, and what
   it calls to see its output kept: statx, open, fdatasync and close. They hand it a fixed input in pieces and take its output in parts, and at
   one call of the run they fail. Its main is run again and again, so that each failure is tried at each call. Says what it did, a line a
   trial, and ends with 1 where something was wrong. The program's words are its name and the high word of the keys, which is empty where keys
   have one word. */
/* The kit's compiler brings no header files, so what is used of the C library is declared here, as it is on x86-64. */
typedef unsigned long size_t;
typedef long ssize_t;
int printf(const char *, ...);
int memcmp(const void *, const void *, size_t);
void *memcpy(void *, const void *, size_t);
void *memset(void *, int, size_t);
int strcmp(const char *, const char *);
size_t strlen(const char *);
int *__errno_location(void);
void *dlsym(void *, const char *);
enum { ENOENT = 2, EINTR = 4, EIO = 5, EBADF = 9, EAGAIN = 11, EACCES = 13, EINVAL = 22, ENOSPC = 28, EPIPE = 32 };

/* The program's main. */
typedef int Main(int, char **, char **);
static Main *program;
static char **environment;

/* Commands, lines that are none, the empty line among them, and a last line without its newline. Where keys have two words, their high
   word stands at '#', and that of a key 0 at '~'. */
static const char asked[] =
    "00000005#0000000500000032\n00000001#0000000500000000\nxyz\n00000006#0000000700000000\n\n"
    "00000005#00000009000000ff\r\n00000005#0000000900000041\n0000000c~0000000000000000\n00000003#00000005000000000000000000000000\n"
    "00000003#0000000500000000\n00000009~0000000000000000\n0000000b~00000000000000";
static const char answered[] =
    "00000002#000000050000000000000000\n00000000#000000050000003200000002\n"
    "0000000f~000000000000000000000000\n00000001~000000000000000000000002\n";
enum { MOST = 4096 };

static const char *name, *high;
static char input[MOST], begins[MOST];
static size_t input_length, begins_length, line; /* line: the bytes of an answer's line */

/* The text with the high words in place. */
static size_t spread(const char *text, char *to) {
    char *at = to;
    for (; *text; text++) {
        size_t n = *text == '#' || *text == '~' ? strlen(high) : 1;
        memcpy(at, *text == '#' ? high : *text == '~' ? "00000000" : text, n);
        at += n;
    }
    return (size_t)(at - to);
}

/* How a run goes: the bytes that a read gives and a write takes at most; at which call of read and write something happens, what, and how
   often in a row. A fault of 0 is no failure, and a write that takes nothing. */
static struct { size_t piece, part; int at, fault, times; } plan;
/* What the output is: whether a file, what happens where it is asked for that and where it is opened once more, and what at each of so many
   waits for it. */
static struct { int is_file, at_stat, at_open, at_wait, waits; } output;
/* How it went. */
static struct { int calls, naps, fired, at_end; size_t taken, out, err; } was;
/* How the program saw to its output: what was asked, opened, waited for and closed, and how much was written when it was waited for. */
static struct { int stats, opened, waits, closed; size_t out; } seen;
static char out[MOST], err[MOST];

/* Whether this call fails, with errno set. */
static int fails(void) {
    was.calls++;
    if (was.calls < plan.at || was.calls >= plan.at + plan.times) return 0;
    was.fired++;
    *__errno_location() = plan.fault;
    return 1;
}

static size_t least(size_t a, size_t b) { return a < b ? a : b; }

ssize_t read(int fd, void *to, size_t room) {
    if (fd != 0) { *__errno_location() = EBADF; return -1; }
    if (plan.fault != 0 && fails()) return -1;
    size_t n = least(least(room, plan.piece), input_length - was.taken);
    memcpy(to, input + was.taken, n);
    was.taken += n;
    was.at_end = n == 0;
    return (ssize_t)n;
}

ssize_t write(int fd, const void *from, size_t length) {
    if (fd == 2) {
        size_t n = least(length, MOST - was.err);
        memcpy(err + was.err, from, n);
        was.err += n;
        return (ssize_t)n;
    }
    if (fd != 1) { *__errno_location() = EBADF; return -1; }
    if (fails()) return plan.fault == 0 ? 0 : -1;
    size_t n = least(least(length, plan.part), MOST - was.out);
    memcpy(out + was.out, from, n);
    was.out += n;
    return (ssize_t)n;
}

/* Whether a call fails in this way, with errno set. */
static int fails_with(int fault) {
    *__errno_location() = fault;
    return fault != 0;
}

enum { PIPE = 0010600, FILE_MODE = 0100600, MODE = 28, STATX = 256, FILE_FD = 9 };
static int is_output(const char *path) { return strcmp(path, "/proc/self/fd/1") == 0; }

int statx(int folder, const char *path, int flags, unsigned mask, void *to) {
    (void)folder, (void)flags, (void)mask;
    seen.stats++;
    if (!is_output(path)) was.fired = -1000;
    if (fails_with(output.at_stat)) return -1;
    unsigned short mode = output.is_file ? FILE_MODE : PIPE;
    memset(to, 0, STATX);
    memcpy((char *)to + MODE, &mode, sizeof mode);
    return 0;
}

int open(const char *path, int flags, ...) {
    (void)flags;
    if (!is_output(path)) was.fired = -1000;
    if (fails_with(output.at_open)) return -1;
    seen.opened++;
    return FILE_FD;
}

int fdatasync(int fd) {
    if (fd != FILE_FD) was.fired = -1000;
    seen.waits++;
    seen.out = was.out;
    return seen.waits <= output.waits && fails_with(output.at_wait) ? -1 : 0;
}

int close(int fd) {
    if (fd != FILE_FD) was.fired = -1000;
    seen.closed++;
    return 0;
}

int nanosleep(const void *asked, void *left) {
    const long *time = asked;
    (void)left;
    if (time[0] != 0 || time[1] <= 0 || time[1] > 100000000) was.fired = -1000;
    was.naps++;
    return 0;
}

static int run(size_t piece, size_t part, int at, int fault, int times) {
    plan.piece = piece, plan.part = part, plan.at = at, plan.fault = fault, plan.times = times;
    was.calls = was.naps = was.fired = was.at_end = 0;
    was.taken = was.out = was.err = 0;
    seen.stats = seen.opened = seen.waits = seen.closed = 0;
    char *words[] = {(char *)name, 0};
    return program(1, words, environment);
}

static char whole[MOST];
static size_t whole_length;

/* What was written is the first n bytes of what a run without failures writes. */
static int wrote(size_t n) { return was.out == n && memcmp(out, whole, n) == 0; }
/* What was said is the program's name and the text, or nothing where that is empty. */
static int said(const char *text) {
    size_t n = *text ? strlen(name) : 0;
    return was.err == n + strlen(text) && memcmp(err, name, n) == 0 && memcmp(err + n, text, was.err - n) == 0;
}

static int wrong;
static void verdict(const char *what, int right) {
    printf("faults, %s, %s: %s\n", name, what, right ? "right" : "WRONG");
    if (!right) wrong = 1;
}

static const size_t pieces[] = {1, 2, 24, 25, 26, 32, 33, 34, 100, MOST}, parts[] = {1, 10, 33, 34, 41, 42, MOST};
enum { PIECES = sizeof pieces / sizeof *pieces, PARTS = sizeof parts / sizeof *parts };

/* Whether a failure of this kind, so often in a row from each call on, always ends as the function says, however input and output are cut. */
static int at_each_call(int fault, int times, int (*right)(int status)) {
    int tried = 0;
    for (int i = 0; i < PIECES; i++)
        for (int j = 0; j < PARTS; j++) {
            run(pieces[i], parts[j], 0, 0, 0);
            for (int at = 1, calls = was.calls; at <= calls; at++, tried++) {
                int status = run(pieces[i], parts[j], at, fault, times);
                if (!right(status)) {
                    printf("faults: errno %d, %d times from call %d of %d on, pieces of %zu, parts of %zu: status %d, %zu bytes written\n",
                        fault, times, at, calls, pieces[i], parts[j], status, was.out);
                    return 0;
                }
            }
        }
    return tried > 1000;
}

/* Tried again: nothing is lost and nothing said. Where it would block or a write took nothing it waits, and it never waits otherwise. */
static int goes_on(int status) { return status == 0 && wrote(whole_length) && said(""); }
static int at_once(int status) { return goes_on(status) && was.fired == plan.times && was.naps == 0; }
static int waits(int status) { return goes_on(status) && was.naps == was.fired; }

/* The end: the lines that were read whole are answered, or their answers were being written; the line that is not ended has no answer; and
   what failed is said once. */
static int ends(int status, const char *of_input, const char *of_output) {
    size_t answers = 0;
    for (size_t i = 0; i < was.taken; i++) answers += input[i] == '\n' ? line : 0;
    if (was.at_end) answers = whole_length;
    if (status != 1 || was.fired != 1 || was.naps != 0) return 0;
    return (said(of_input) && !was.at_end && wrote(answers)) || (said(of_output) && was.out < answers && wrote(was.out));
}
static int ends_by_eio(int status) {
    return ends(status, ": standard input: Input/output error\n", ": standard output: Input/output error\n");
}
static int ends_by_enospc(int status) {
    return ends(status, ": standard input: No space left on device\n", ": standard output: No space left on device\n");
}
static int ends_quietly(int status) { return ends(status, "", ""); }

/* The output, asked for as the plan says, is waited for so often, after all of the answers. */
static int settles(int waits, int status, const char *text) {
    int ended = run(MOST, MOST, 0, 0, 0);
    int right = seen.stats == 1 && seen.waits == waits && seen.closed == seen.opened && (waits == 0 || seen.out == whole_length);
    return right && ended == status && wrote(whole_length) && said(text) && was.fired == 0;
}
static int settles_file(int fault, int faults, int waits, int status, const char *text) {
    output.is_file = 1, output.at_wait = fault, output.waits = faults;
    int right = settles(waits, status, text);
    output.is_file = output.at_wait = output.waits = 0;
    return right;
}
static int settles_unasked(int at_stat, int at_open) {
    output.is_file = 1, output.at_stat = at_stat, output.at_open = at_open;
    int right = settles(0, 0, "");
    output.is_file = output.at_stat = output.at_open = 0;
    return right;
}

static int trials(int words, char **word, char **own_environment) {
    if (words != 3) return 2;
    name = word[1], high = word[2], environment = own_environment;
    input_length = spread(asked, input), begins_length = spread(answered, begins), line = 33 + strlen(high);
    int right = run(MOST, MOST, 0, 0, 0) == 0 && was.out == 12 * line && memcmp(out, begins, begins_length) == 0;
    right = right && said("") && was.naps == 0;
    memcpy(whole, out, was.out);
    whole_length = was.out;
    verdict("no failure", right);
    right = 1;
    for (int i = 0; i < PIECES; i++)
        for (int j = 0; j < PARTS; j++) right = goes_on(run(pieces[i], parts[j], 0, 0, 0)) && was.naps == 0 && right;
    verdict("input in pieces, output in parts", right);
    verdict("each call interrupted", at_each_call(EINTR, 1, at_once) && at_each_call(EINTR, 5, at_once));
    verdict("each call would block", at_each_call(EAGAIN, 1, waits) && at_each_call(EAGAIN, 20, waits));
    verdict("each write takes nothing", at_each_call(0, 1, waits) && at_each_call(0, 20, waits));
    verdict("each call fails", at_each_call(EIO, 1, ends_by_eio) && at_each_call(ENOSPC, 1, ends_by_enospc));
    verdict("the reader goes away", at_each_call(EPIPE, 1, ends_quietly));
    verdict("an output that is no file", settles(0, 0, ""));
    verdict("a file for the output", settles_file(0, 0, 1, 0, "") && settles_file(EINTR, 3, 4, 0, ""));
    verdict("the file cannot be kept", settles_file(EIO, 1, 1, 1, ": standard output: Input/output error\n") &&
        settles_file(ENOSPC, 1, 1, 1, ": standard output: No space left on device\n"));
    verdict("the file cannot be asked", settles_file(EINVAL, 1, 1, 0, "") && settles_unasked(ENOENT, 0) && settles_unasked(0, EACCES));
    return wrong;
}

/* Called before the program's main, which it is given, in the place of the C library's; and what that one is given. */
typedef int Start(Main *, int, char **, void (*)(void), void (*)(void), void (*)(void), void *);
int __libc_start_main(Main *main, int words, char **word, void (*init)(void), void (*fini)(void), void (*unload)(void), void *stack) {
    Start *start;
    void *found = dlsym((void *)-1, "__libc_start_main");
    memcpy(&start, &found, sizeof start);
    program = main;
    return start(trials, words, word, init, fini, unload, stack);
}
