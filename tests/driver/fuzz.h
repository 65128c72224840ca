/* What the parts of the fuzzer share: fuzz.c, of books and records, and fuzz_wire.c, of paths and their bytes on the wire. */
#ifndef FUZZ_H
#define FUZZ_H

#include <stddef.h>
#include <stdint.h>

#include "combinator.h"

/* Room for books, records, paths and outputs past their limits: a path has what any of its counts need. */
#define MAX_BOOK (COMBINATOR_MAX_BOOK + 20000)
#define MAX_RECORD (4 * COMBINATOR_RECORD_SIZE)
#define MAX_GIVEN (COMBINATOR_PATH_HEAD_SIZE + UINT8_MAX * (COMBINATOR_INFO_SIZE + COMBINATOR_HOP_SIZE + COMBINATOR_INTERFACE_SIZE) + 40)
#define MAX_OUT (2 * COMBINATOR_LIST_SIZE + 10000)

/* Choices, from the seed and the turn; `pick` is below n. */
uint64_t draw(void);
unsigned pick(unsigned n);
int one_in(unsigned n);

enum kind { LISTING, ROUTES, ASSEMBLY, WRITING, READING, KINDS };

/* What the next call is made with: a book and a record, or the path to write, or the wire to read, in `given`. */
struct now {
    uint64_t turn; /* 0: the sweep */
    const char *kind;
    uint64_t src, dst;
    uint8_t book[MAX_BOOK];
    size_t book_len;
    uint8_t record[MAX_RECORD];
    size_t record_len;
    uint8_t given[MAX_GIVEN];
    size_t given_len;
};
extern struct now now;

/* One call, held to the model. The output that came is at the returned place until the next call. */
const uint8_t *check(enum kind kind, size_t out_len, uint32_t *answered);

/* Prints the call and ends the program. */
void wrong(enum kind kind, const char *what, size_t out_len, uint32_t answer, uint32_t want);

/* ---- fuzz_wire.c */

/* A path that assembly left: written and read back, and both with damage. */
void use_path(const uint8_t *path);

/* A turn on a path or on a wire that is drawn. */
void turn_path(void);
void turn_wire(void);

void sweep_wire(void);

/* Counts of the calls since it was asked before; of the sweep, and of many turns, each kind must be there. */
void report_wire(const char *what);

#endif
