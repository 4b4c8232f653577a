/* LOWER and RUN, for C and C++.
 *
 * A book is one program as a row of bytes; docs/BOOK.md says how. LOWER gives the combinators of a book as a table of
 * nodes. RUN runs such a table, with a value of the book for each witness.
 *
 * The functions stand in crates/host/out/libhost.a, which `rt lib`, in crates/host, proves and writes. It is for Linux
 * on x86-64, has no data of its own, may be linked into a program or a shared object, and needs memcpy and memset of the
 * C library. This file needs C11 or C++11. There is no version number: take both from one checkout.
 *
 * Every call answers, whatever its bytes and numbers are, and writes nothing but the table that it is lent last. It
 * keeps nothing for the next call, so threads may call at the same time.
 *
 * Of its caller a call asks this:
 *
 * - A pointer and the length after it belong together. The bytes are there for the whole call, and nobody changes them
 *   meanwhile.
 * - No pointer is null, not even where its length is 0; nothing tests that. With length 0 it need not point to
 *   anything, since nothing is read or written there.
 * - The table that is written shares no byte with what is read.
 * - The thread has stack enough. LOWER took up to 733,184 bytes on the worst books that we know, and 1 MB was always
 *   enough. RUN took 86,016 bytes, whatever it was given. docs/PERFORMANCE.md has what was measured.
 *
 * Neither call judges types. That RUN gives what the source means is proved for books that CHECK passes: have a book
 * checked first, by the program checkbook, and keep the bytes that passed. Of any other book RUN's answer is still the
 * meaning of the combinators in the table.
 *
 * LOWER stores at most 65,535 nodes and ends soon. RUN may take long: a table of some dozens of nodes can say more steps
 * than a machine lives to see. There is no limit on steps and no way to stop a call, so a table that is not known is run
 * in a process that can be ended.
 */
#ifndef SIMPLICITYHL_H
#define SIMPLICITYHL_H

/* A length has the width of a pointer, a number four bytes. Plain types, so that this file needs no other. */
#ifdef __cplusplus
static_assert(sizeof(unsigned long) == sizeof(void *), "a length is an unsigned long");
static_assert(sizeof(unsigned int) == 4, "a number is an unsigned int");
extern "C" {
#else
_Static_assert(sizeof(unsigned long) == sizeof(void *), "a length is an unsigned long");
_Static_assert(sizeof(unsigned int) == 4, "a number is an unsigned int");
#endif

/* The tables. */
enum {
    /* The bytes of a node and of a cell: its kind, then two operands of two bytes each, low byte first. An operand
     * that is not used is 0. A table has room for its length over five; odd bytes at its end hold nothing. */
    SIMPLICITYHL_ENTRY = 5,
    /* No table has room for more nodes or cells than this, however long it is. So a table of 327,675 bytes is never too
     * short: what does not fit there fits in none. A witness list has use for 131,072 bytes, an entry for each name. */
    SIMPLICITYHL_MOST = 65535
};

/* What `number` says. A refusal says what is wrong, and `place` where: a record's number up to NAME, a node's from
 * NODES on. */
enum {
    /* No refusal. `place` is 0. */
    SIMPLICITYHL_DONE = 0,

    /* The book's form; either call, before all else. */
    SIMPLICITYHL_REFUSED_SIZE = 1,      /* no byte, or more than 65,535; place 0 */
    SIMPLICITYHL_REFUSED_RECORDS = 2,   /* more than 4,096 records; place 4096 */
    SIMPLICITYHL_REFUSED_CUT = 3,       /* the record goes on past the book's end */
    SIMPLICITYHL_REFUSED_MARK = 4,      /* the record's mark is none of the 37 */
    SIMPLICITYHL_REFUSED_NUMBER = 5,    /* a count, an index, a size or a jet's number is out of its range */
    SIMPLICITYHL_REFUSED_REFERENCE = 6, /* the record names one that is not earlier or not of the right kind */
    SIMPLICITYHL_REFUSED_TWICE = 7,     /* the same type stands earlier, or an expression or statement is named again */
    SIMPLICITYHL_REFUSED_DEPTH = 8,     /* the record is more than 255 deep */
    SIMPLICITYHL_REFUSED_LOOSE = 9,     /* an expression or statement that none names; else the last is no expression */

    /* LOWER alone. */
    SIMPLICITYHL_REFUSED_UNDEFINED = 10, /* a variable whose name is not in scope */
    SIMPLICITYHL_REFUSED_ROOM = 11,      /* the table is full; place is the record that needed a node more */
    SIMPLICITYHL_REFUSED_BINDINGS = 12,  /* more than 256 bindings at once, the input's counted; place is what binds */

    /* The book's types. Neither call of this file judges them. */
    SIMPLICITYHL_REFUSED_TYPE = 13, /* another type, or another number of arguments, than is declared */
    SIMPLICITYHL_REFUSED_NAME = 14, /* a name twice in one pattern or in one list of parameters */

    /* RUN alone. */
    SIMPLICITYHL_REFUSED_NODES = 15,   /* a bad or absent node; 0 if none is asked for, 65535 if too many are */
    SIMPLICITYHL_REFUSED_STEEP = 16,   /* the node would be entered more than 4,096 deep; the last node is 1 deep */
    SIMPLICITYHL_REFUSED_WITNESS = 17, /* the witness has no entry, or its entry is no value of the node's type */
    SIMPLICITYHL_REFUSED_CELLS = 18,   /* the cells are full; place is the node that needed one, 0 before the run */
    SIMPLICITYHL_REFUSED_STUCK = 19,   /* the node meets a value of another shape than it needs */
    SIMPLICITYHL_REFUSED_JET = 20      /* a jet that RUN does not know, one of the hash's */
};

/* A node's kind, and its operands. A child is the number of an earlier node; the last node is the root. What case and
 * the asserts hand on is the pair of what is inside the first and the second as it is. */
enum {
    SIMPLICITYHL_NODE_IDEN = 1,     /* gives its input */
    SIMPLICITYHL_NODE_UNIT = 2,     /* gives unit */
    SIMPLICITYHL_NODE_INJL = 3,     /* child: left of what it gives */
    SIMPLICITYHL_NODE_INJR = 4,     /* child: right of what it gives */
    SIMPLICITYHL_NODE_TAKE = 5,     /* child, on the first of a pair */
    SIMPLICITYHL_NODE_DROP = 6,     /* child, on the second of a pair */
    SIMPLICITYHL_NODE_COMP = 7,     /* child, child: the second on what the first gives */
    SIMPLICITYHL_NODE_CASE = 8,     /* child, child: one or the other, as a pair's first is left or right */
    SIMPLICITYHL_NODE_PAIR = 9,     /* child, child: the pair of what both give on the same input */
    SIMPLICITYHL_NODE_ASSERTL = 10, /* child, symbol: as case, and fails on right */
    SIMPLICITYHL_NODE_ASSERTR = 11, /* symbol, child: as case, and fails on left */
    SIMPLICITYHL_NODE_FAIL = 12,    /* fails */
    SIMPLICITYHL_NODE_WITNESS = 13, /* name, type record: the value that the witness list has at that name */
    SIMPLICITYHL_NODE_SCRIBE = 14,  /* value record: that value */
    SIMPLICITYHL_NODE_JET = 15      /* one of the jets below */
};

/* A jet's number. A bit is left of unit for false and right of unit for true, and a word of eight bits is a pair of
 * its halves, the high one first, down to the bits. */
enum {
    SIMPLICITYHL_JET_VERIFY = 0,        /* a bit: fails on false */
    SIMPLICITYHL_JET_EQ_8 = 1,          /* two words of eight bits: whether they are equal */
    SIMPLICITYHL_JET_ADD_8 = 2,         /* two words of eight bits: the carry, and the sum modulo 256 */
    SIMPLICITYHL_JET_HASH_INIT = 3,     /* SHA-256 begun; RUN refuses this jet and those after it */
    SIMPLICITYHL_JET_HASH_ADD_1 = 4,    /* one byte added to it */
    SIMPLICITYHL_JET_HASH_ADD_2 = 5,    /* two bytes */
    SIMPLICITYHL_JET_HASH_ADD_4 = 6,    /* four */
    SIMPLICITYHL_JET_HASH_ADD_8 = 7,    /* eight */
    SIMPLICITYHL_JET_HASH_ADD_16 = 8,   /* sixteen */
    SIMPLICITYHL_JET_HASH_ADD_32 = 9,   /* thirty-two */
    SIMPLICITYHL_JET_HASH_FINALIZE = 10 /* the hash, a word of 256 bits */
};

/* A cell's kind. Its operands are the numbers of earlier cells. */
enum {
    SIMPLICITYHL_CELL_UNIT = 1,  /* () */
    SIMPLICITYHL_CELL_LEFT = 2,  /* left of a cell */
    SIMPLICITYHL_CELL_RIGHT = 3, /* right of a cell */
    SIMPLICITYHL_CELL_PAIR = 4   /* a pair of two cells */
};

/* What LOWER answers: DONE with the number of nodes, or a refusal with count 0. */
struct simplicityhl_lower_outcome {
    unsigned int number, place, count;
};

/* LOWER: stores the nodes of `book` in the table `nodes`, and zeros behind them. After a refusal the table is zero
 * throughout. `symbols` 0 leaves debug symbols out, any other number puts them in. */
struct simplicityhl_lower_outcome simplicityhl_lower(const unsigned char *book, unsigned long book_length,
                                                     unsigned char symbols, unsigned char *nodes,
                                                     unsigned long nodes_length);

/* What RUN answers: DONE with how many cells are used and the number of the value's cell; or FAILED; or a refusal with
 * count 0 and cell 0. */
struct simplicityhl_run_outcome {
    unsigned int number, place, count, cell;
};

/* FAILED is DONE with this for `count`, and cell 0: the program ran and said no. A value uses one cell at least. */
enum { SIMPLICITYHL_FAILED = 0 };

/* RUN: runs the first `count` entries of the table `nodes`, on unit, beside the book that they were made from.
 * `witnesses` has two bytes for each witness name, from name 0 on: the number, low byte first, of the value record
 * that the witness stands for. The values made are stored in the table `cells`, with zeros behind them; after FAILED
 * and after a refusal it is zero throughout. Nothing is asked of nodes or book: whatever they are is run or refused. */
struct simplicityhl_run_outcome simplicityhl_run(const unsigned char *book, unsigned long book_length,
                                                 const unsigned char *witnesses, unsigned long witnesses_length,
                                                 const unsigned char *nodes, unsigned long nodes_length,
                                                 unsigned int count, unsigned char *cells,
                                                 unsigned long cells_length);

#ifdef __cplusplus
}
#endif

#endif
