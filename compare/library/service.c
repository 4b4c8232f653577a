/* Calls LOWER and RUN as the plug-in's host does, from C, and READ and CHECK, for each request on standard input.
 *
 *     service [STACK]
 *
 * A request for LOWER: 0 (1 byte), symbols (1), the lengths of the table of nodes and of the book (4 each), the book.
 * For RUN: 1 (1 byte), how many nodes there are (4), the lengths of the cells, the book, the witness list and the
 * table of nodes (4 each), then these last three. For READ: 2 (1 byte), and for CHECK: 3, then the length of the book (4)
 * and the book. The reply to any: number, place, count and cell (4 each; only RUN has a cell, and 0 stands for it), how
 * many bytes the written table has up to its last that isn't zero (4), and these bytes; READ and CHECK write none.
 * Numbers are low byte first.
 *
 * The table is full of 0xa5 before each call. The bytes before and after each slice, and those that are read, must be
 * the same after it. A slice of no bytes points to nowhere. The call has STACK bytes of stack, 4 MiB where none is
 * given, and what needs more dies of it.
 *
 * It takes no header of the C library: what is used of that is declared here, as it is on x86-64.
 */
#include "simplicityhl.h"

typedef unsigned char byte;
typedef unsigned int number;
typedef unsigned long size;

extern long read(int file, void *to, size length);
extern long write(int file, const void *from, size length);
extern _Noreturn void _exit(int status);
extern size strlen(const char *text);
extern unsigned long strtoul(const char *text, char **end, int base);
extern void *memset(void *to, int value, size length);
extern void *memcpy(void *to, const void *from, size length);
extern int memcmp(const void *a, const void *b, size length);
extern void *mmap(void *at, size length, int allowed, int flags, int file, long from);
extern int mprotect(void *at, size length, int allowed);
extern int pthread_attr_init(void *settings);
extern int pthread_attr_setstack(void *settings, void *lowest, size length);
extern int pthread_create(unsigned long *thread, const void *settings, void *(*start)(void *), void *given);
extern int pthread_join(unsigned long thread, void **given_back);

/* READ and CHECK, which the library `probe` has for the judges alone. */
struct outcome {
    number number, place, count;
};
extern struct outcome simplicityhl_read(const byte *book, size book_length);
extern struct outcome simplicityhl_check(const byte *book, size book_length);

enum { NOTHING = 0, READ_WRITE = 3, PRIVATE_NEW = 0x22 };

/* More than a book, a witness list or a table may have, so that what is too long is asked for too. */
enum { BOOK = 1 << 17, WITNESSES = 1 << 18, TABLE = 1 << 19, GUARD = 64, BLOCK = 1024 };

enum { GUARDED = 0xc3, UNTOUCHED = 0xa5 };

/* Below the stack that a call is given lie at least STACK_MOST bytes that it can't touch: no frame reaches over them. */
enum { STACK = 1 << 22, STACK_MOST = 1 << 27, PAGE = 4096 };

/* A slice that is lent to a call. Its bytes stand in `area` between two guards; `sent` has them as they were sent. */
struct slice {
    const char *name;
    byte *area, *sent;
    size most, length;
};

static byte book_area[GUARD + BOOK + GUARD], book_sent[BOOK];
static byte witnesses_area[GUARD + WITNESSES + GUARD], witnesses_sent[WITNESSES];
static byte nodes_area[GUARD + TABLE + GUARD], nodes_sent[TABLE];
static byte cells_area[GUARD + TABLE + GUARD];

static struct slice book = {"book", book_area, book_sent, BOOK, 0};
static struct slice witnesses = {"witness list", witnesses_area, witnesses_sent, WITNESSES, 0};
static struct slice nodes = {"table of nodes", nodes_area, nodes_sent, TABLE, 0};
static struct slice cells = {"cells", cells_area, 0, TABLE, 0};

static const byte zeros[BLOCK];
static byte guard[GUARD], untouched[BLOCK];
static size stack = STACK;
static byte *lowest;

static _Noreturn void die(const char *why, const char *what) {
    static const char name[] = "service: ";
    write(2, name, sizeof name - 1);
    write(2, why, strlen(why));
    write(2, what, strlen(what));
    write(2, "\n", 1);
    _exit(1);
}

/* Whether all the bytes came; an end before the first is no fault. */
static int take(byte *to, size length) {
    size had = 0;
    while (had < length) {
        long n = read(0, to + had, length - had);
        if (n < 0 || (n == 0 && had != 0)) die("a request is cut", "");
        if (n == 0) return 0;
        had += (size)n;
    }
    return 1;
}

/* Within a request an end is one. */
static void take_more(byte *to, size length) {
    if (!take(to, length)) die("a request is cut", "");
}

static void give(const byte *from, size length) {
    while (length != 0) {
        long n = write(1, from, length);
        if (n <= 0) die("nobody reads the replies", "");
        from += n;
        length -= (size)n;
    }
}

static number number_at(const byte *at) {
    return (number)at[0] | (number)at[1] << 8 | (number)at[2] << 16 | (number)at[3] << 24;
}

static void put_number(byte *at, number n) {
    for (int i = 0; i < 4; i++) at[i] = (byte)(n >> 8 * i);
}

static byte *bytes_of(const struct slice *slice) { return slice->area + GUARD; }

/* What a call is given for the slice. */
static byte *pointer_to(const struct slice *slice) {
    return slice->length == 0 ? (byte *)1 : bytes_of(slice);
}

static void set_length(struct slice *slice, const byte *at) {
    slice->length = number_at(at);
    if (slice->length > slice->most) die("too long: the ", slice->name);
}

static void set_guards(const struct slice *slice) {
    memcpy(slice->area, guard, GUARD);
    memcpy(bytes_of(slice) + slice->length, guard, GUARD);
}

/* By blocks, here and below: under an emulator a long copy is dear. */
static void take_input(const struct slice *slice) {
    byte *bytes = bytes_of(slice);
    take_more(bytes, slice->length);
    for (size k = 0; k < slice->length; k += BLOCK) memcpy(slice->sent + k, bytes + k, BLOCK);
    set_guards(slice);
}

static void make_output(const struct slice *slice) {
    for (size k = 0; k < slice->length; k += BLOCK) memcpy(bytes_of(slice) + k, untouched, BLOCK);
    set_guards(slice);
}

static void check_guards(const struct slice *slice) {
    if (memcmp(slice->area, guard, GUARD) != 0 || memcmp(bytes_of(slice) + slice->length, guard, GUARD) != 0)
        die("a call wrote beside the ", slice->name);
}

static void check_input(const struct slice *slice) {
    check_guards(slice);
    if (memcmp(slice->sent, bytes_of(slice), slice->length) != 0) die("a call wrote into the ", slice->name);
}

/* How many bytes there are up to the last that isn't zero. */
static size used(const struct slice *slice) {
    const byte *bytes = bytes_of(slice);
    size length = slice->length;
    while (length >= BLOCK && memcmp(bytes + length - BLOCK, zeros, BLOCK) == 0) length -= BLOCK;
    while (length != 0 && bytes[length - 1] == 0) length--;
    return length;
}

/* The reply: an outcome, and the table that was written. */
static void reply(struct simplicityhl_run_outcome got, const struct slice *written) {
    byte head[20];
    size length = used(written);
    check_guards(written);
    put_number(head, got.number);
    put_number(head + 4, got.place);
    put_number(head + 8, got.count);
    put_number(head + 12, got.cell);
    put_number(head + 16, (number)length);
    give(head, sizeof head);
    give(bytes_of(written), length);
}

static void call_lower(void) {
    byte head[9];
    take_more(head, sizeof head);
    set_length(&nodes, head + 1);
    set_length(&book, head + 5);
    take_input(&book);
    make_output(&nodes);
    struct simplicityhl_lower_outcome got =
        simplicityhl_lower(pointer_to(&book), book.length, head[0], pointer_to(&nodes), nodes.length);
    check_input(&book);
    reply((struct simplicityhl_run_outcome){got.number, got.place, got.count, 0}, &nodes);
}

static void call_run(void) {
    byte head[20];
    take_more(head, sizeof head);
    set_length(&cells, head + 4);
    set_length(&book, head + 8);
    set_length(&witnesses, head + 12);
    set_length(&nodes, head + 16);
    take_input(&book);
    take_input(&witnesses);
    take_input(&nodes);
    make_output(&cells);
    struct simplicityhl_run_outcome got =
        simplicityhl_run(pointer_to(&book), book.length, pointer_to(&witnesses), witnesses.length, pointer_to(&nodes),
                         nodes.length, number_at(head), pointer_to(&cells), cells.length);
    check_input(&book);
    check_input(&witnesses);
    check_input(&nodes);
    reply(got, &cells);
}

/* READ or CHECK: no table is written. */
static void call_judge(struct outcome (*judge)(const byte *, size)) {
    byte head[4];
    take_more(head, sizeof head);
    set_length(&book, head);
    take_input(&book);
    nodes.length = 0;
    make_output(&nodes);
    struct outcome got = judge(pointer_to(&book), book.length);
    check_input(&book);
    reply((struct simplicityhl_run_outcome){got.number, got.place, got.count, 0}, &nodes);
}

/* Every request, with nothing below this frame but the stack that a call is given. */
static void *serve(void *nothing) {
    byte call;
    size here = (size)__builtin_frame_address(0);
    size end = (here - stack) / PAGE * PAGE;
    if (mprotect(lowest, end - (size)lowest, NOTHING) != 0) die("no end of the stack can be set", "");
    while (take(&call, 1)) {
        if (call == 0)
            call_lower();
        else if (call == 1)
            call_run();
        else if (call == 2)
            call_judge(simplicityhl_read);
        else if (call == 3)
            call_judge(simplicityhl_check);
        else
            die("a request for no call that there is", "");
    }
    return nothing;
}

int main(int count, char **words) {
    union {
        byte bytes[64];
        long aligned;
    } settings;
    unsigned long thread;
    if (count > 1) stack = strtoul(words[1], 0, 10);
    if (stack > STACK_MOST) die("so much stack is not given", "");
    memset(guard, GUARDED, sizeof guard);
    memset(untouched, UNTOUCHED, sizeof untouched);
    lowest = mmap(0, 2 * (size)STACK_MOST, READ_WRITE, PRIVATE_NEW, -1, 0);
    if (lowest == (byte *)-1) die("no memory for a stack", "");
    if (pthread_attr_init(&settings) != 0 || pthread_attr_setstack(&settings, lowest, 2 * (size)STACK_MOST) != 0 ||
        pthread_create(&thread, &settings, serve, 0) != 0)
        die("no thread starts", "");
    return pthread_join(thread, 0);
}
