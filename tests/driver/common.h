/* What the driver's modes share. */
#ifndef COMMON_H
#define COMMON_H

#include <stddef.h>
#include <stdint.h>

#include "combinator.h"

/* Big-endian numbers: of a field, whose bytes the header says, and of any count of bytes. */
unsigned number16(const uint8_t *at);
uint32_t number32(const uint8_t *at);
uint64_t number64(const uint8_t *at);
uint64_t number(const uint8_t *at, int size);
void put16(uint8_t *at, unsigned n);
void put32(uint8_t *at, uint32_t n);
void put64(uint8_t *at, uint64_t n);
void put(uint8_t *at, int size, uint64_t n);

/* Memory, or the program ends. */
void *resize(void *old, size_t bytes);
void *grow(void *old, size_t *room, size_t size);

uint8_t *read_file(const char *name, size_t *len);

/* A case: source, destination, book. Source and destination take ENDS_SIZE bytes. In a batch and in a stored file its length stands
 * before it, in FRONT_SIZE bytes. */
#define ENDS_SIZE (2 * COMBINATOR_AS_SIZE)
#define FRONT_SIZE 4
struct input {
    uint64_t src, dst;
    const uint8_t *book;
    size_t book_len;
};

/* The case of `size` bytes at `at`. One under ENDS_SIZE bytes has no book (NULL). */
struct input input_at(const uint8_t *at, size_t size);

/* The next case of a batch at *at: 1, or 0 at the end. */
int next_case(const uint8_t *batch, size_t len, size_t *at, struct input *c);

/* Time of the clock, and of this thread's own work. */
uint64_t now_ns(void);
uint64_t work_ns(void);

/* Where a book's heads stand, an edge of a solution's record, and the parts of a path by its counts. */
size_t head_place(unsigned position);
size_t edge_place(unsigned index);
const uint8_t *path_infos(const uint8_t *path);
const uint8_t *path_hops(const uint8_t *path);
const uint8_t *path_ases(const uint8_t *path);
const uint8_t *path_ids(const uint8_t *path);
size_t path_length(const uint8_t *path);

/* The router of docs/SPECIFICATION.md 7 on a path's bytes: feeds the path to a router and compares ids, infos and hops with the book. NULL where
 * all holds, else what does not. */
const char *router_fault(const struct input *c, const uint8_t *record, const uint8_t *path);

/* Prints to standard error and ends the program with status 1 (2: bad usage). */
void fail(const char *format, ...);
void usage(const char *format, ...);

/* The modes; `arg` is what follows the mode's name. */
int batch_mode(int args, char **arg);
int replay_mode(int args, char **arg);
int bench_mode(int args, char **arg);
int scale_mode(int args, char **arg);
int stack_mode(int args, char **arg);
int fuzz_mode(int args, char **arg);

#endif
