// What a vault panel does with the library: it lowers a vault once, runs it for each choice of witnesses, and prints
// what it would show. It does not check the vault's types: that is done before, by checkbook.
//
//     panel BOOK BRANCHES [CHOICE WITNESSES]...
//
// BOOK and each WITNESSES are files: a book, and a witness list for it; CHOICE says in words what was chosen. A vault
// may tell which of its branches was taken: its value is then a pair, of the branch as a word of eight bits and of the
// rest. BRANCHES has the branches' names in order, with blanks between them, or nothing for a vault that tells none.
#include "simplicityhl.h"

// What is used of the C library. The kit has no headers of it; where there are some, this is <cstdio> and <cstdlib>.
extern "C" {
struct File;
File *fopen(const char *path, const char *how);
unsigned long fread(void *to, unsigned long size, unsigned long count, File *from);
int fclose(File *file);
int printf(const char *format, ...);
[[noreturn]] void exit(int status);
}

namespace {

using Byte = unsigned char;
using Number = unsigned int;

// A byte more than a book may have, so that one that is too long is refused; an entry for each witness name; and tables
// that are never too short.
Byte book_bytes[65535 + 1], witness_bytes[2 * 65536];
Byte nodes[SIMPLICITYHL_ENTRY * SIMPLICITYHL_MOST], cells[SIMPLICITYHL_ENTRY * SIMPLICITYHL_MOST];

// Bytes of a file, where they were read to.
struct Slice {
    Byte *bytes;
    unsigned long length;
};

// The file's bytes, as many as fit.
template <unsigned long most>
Slice slice_of(const char *path, Byte (&to)[most]) {
    File *file = fopen(path, "rb");
    if (!file) {
        printf("%s: no such file\n", path);
        exit(2);
    }
    unsigned long length = fread(to, 1, most, file);
    fclose(file);
    return {to, length};
}

const char *const refusals[] = {
    "",          "SIZE", "RECORDS",  "CUT",  "MARK", "NUMBER", "REFERENCE", "TWICE",   "DEPTH", "LOOSE",
    "UNDEFINED", "ROOM", "BINDINGS", "TYPE", "NAME", "NODES",  "STEEP",     "WITNESS", "CELLS", "STUCK",
    "JET"};

void print_refusal(Number number, Number place) {
    const char *of = number < SIMPLICITYHL_REFUSED_NODES ? "record" : "node";
    printf("refused %u %s at %s %u\n", number, refusals[number], of, place);
}

struct Cell {
    Number kind, first, second;
};

Cell cell_at(Number number) {
    const Byte *at = cells + SIMPLICITYHL_ENTRY * number;
    return {at[0], at[1] + 256u * at[2], at[3] + 256u * at[4]};
}

// Prints a value as (), L x, R x or (x, y). A value may be wider than any screen, since its parts are shared: what goes
// beyond `left` letters is cut. Each level prints something before the next, so none is deeper than that.
class Printer {
public:
    void print(Number number) {
        Cell cell = cell_at(number);
        switch (cell.kind) {
        case SIMPLICITYHL_CELL_UNIT: put("()"); break;
        case SIMPLICITYHL_CELL_LEFT: print_side("L ", cell.first); break;
        case SIMPLICITYHL_CELL_RIGHT: print_side("R ", cell.first); break;
        case SIMPLICITYHL_CELL_PAIR: print_pair(cell); break;
        }
    }

    void end() { printf(left == 0 ? " ...\n" : "\n"); }

private:
    void put(const char *text) {
        for (; *text && left != 0; text++, left--) printf("%c", *text);
    }

    void print_side(const char *side, Number inner) {
        put(side);
        if (left != 0) print(inner);
    }

    void print_pair(Cell pair) {
        print_side("(", pair.first);
        print_side(", ", pair.second);
        put(")");
    }

    Number left = 600;
};

// Whether the cell is a word of so many bits; if so, the number that it stands for.
bool is_word(Number number, int bits, Number &word) {
    Cell cell = cell_at(number);
    if (bits > 1) {
        Number high, low;
        if (cell.kind != SIMPLICITYHL_CELL_PAIR) return false;
        if (!is_word(cell.first, bits / 2, high) || !is_word(cell.second, bits / 2, low)) return false;
        word = (high << bits / 2) + low;
        return true;
    }
    word = cell.kind == SIMPLICITYHL_CELL_RIGHT;
    bool side = word == 1 || cell.kind == SIMPLICITYHL_CELL_LEFT;
    return side && cell_at(cell.first).kind == SIMPLICITYHL_CELL_UNIT;
}

// The name at a place in a row of names; nothing where there are not so many.
void print_name(const char *names, Number place) {
    for (; *names && place != 0; names++) place -= *names == ' ';
    for (; *names && *names != ' '; names++) printf("%c", *names);
}

void print_value(Number cell, const char *branches) {
    Printer printer;
    Number branch;
    if (*branches) {
        Cell told = cell_at(cell);
        if (told.kind != SIMPLICITYHL_CELL_PAIR || !is_word(told.first, 8, branch)) {
            printf("no branch is told\n");
            return;
        }
        printf("branch %u ", branch);
        print_name(branches, branch);
        printf(", ");
        cell = told.second;
    }
    printf("value ");
    printer.print(cell);
    printer.end();
}

void show(const Slice &book, Number count, const char *branches, const char *choice, const char *path) {
    Slice witnesses = slice_of(path, witness_bytes);
    simplicityhl_run_outcome ran = simplicityhl_run(book.bytes, book.length, witnesses.bytes, witnesses.length, nodes,
                                                    sizeof nodes, count, cells, sizeof cells);
    printf("    %s: ", choice);
    if (ran.number != SIMPLICITYHL_DONE)
        print_refusal(ran.number, ran.place);
    else if (ran.count == SIMPLICITYHL_FAILED)
        printf("failed\n");
    else
        print_value(ran.cell, branches);
}

}  // namespace

int main(int count, char **words) {
    if (count < 3 || count % 2 != 1) return 2;
    Slice book = slice_of(words[1], book_bytes);
    simplicityhl_lower_outcome lowered = simplicityhl_lower(book.bytes, book.length, 0, nodes, sizeof nodes);
    if (lowered.number != SIMPLICITYHL_DONE) {
        print_refusal(lowered.number, lowered.place);
        return 1;
    }
    printf("%u nodes\n", lowered.count);
    for (int k = 3; k < count; k += 2) show(book, lowered.count, words[2], words[k], words[k + 1]);
    return 0;
}
