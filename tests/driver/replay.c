/* replay ANSWERS REFUSALS ROUTES WIRE: the files of tests/stored, whose README gives their form. */
#include <inttypes.h>
#include <stdio.h>
#include <stdlib.h>
#include <string.h>

#include "combinator.h"
#include "common.h"

static uint8_t out[2 * COMBINATOR_LIST_SIZE];

struct file {
    const char *name;
    uint8_t *data;
    size_t len, at;
};

static const uint8_t *take(struct file *f, size_t n)
{
    if (f->len - f->at < n)
        fail("%s ends within a case", f->name);
    f->at += n;
    return f->data + f->at - n;
}

static size_t take_number(struct file *f, int size)
{
    return (size_t)number(take(f, (size_t)size), size);
}

static struct input take_input(struct file *f)
{
    size_t n = take_number(f, FRONT_SIZE);
    struct input c = input_at(take(f, n), n);
    if (!c.book)
        fail("%s: an input that ends before the book", f->name);
    return c;
}

static int holds(const uint8_t *want, size_t n, size_t len)
{
    size_t i;
    if (n > len || memcmp(out, want, n))
        return 0;
    for (i = n; i < len; i++)
        if (out[i])
            return 0;
    return 1;
}

static void replay_answers(struct file *f)
{
    size_t cases = 0, solutions = 0, i;
    for (; f->at < f->len; cases++) {
        struct input c = take_input(f);
        size_t count = take_number(f, 2);
        const uint8_t *records = take(f, COMBINATOR_RECORD_SIZE * count);
        uint32_t answer;
        memset(out, 0xa5, sizeof out);
        answer = combinator_list(c.src, c.dst, c.book, c.book_len, out, COMBINATOR_LIST_SIZE);
        if (answer != count || !holds(records, COMBINATOR_RECORD_SIZE * count, COMBINATOR_LIST_SIZE))
            fail("%s: case %zu: listing answers %" PRIu32 ", or other records", f->name, cases, answer);
        for (i = 0; i < count; i++, solutions++) {
            uint32_t want = (uint32_t)take_number(f, 1);
            size_t n = take_number(f, 2);
            const uint8_t *path = take(f, n);
            memset(out, 0xa5, sizeof out);
            answer = combinator_assemble(c.src, c.dst, c.book, c.book_len, records + COMBINATOR_RECORD_SIZE * i, COMBINATOR_RECORD_SIZE, out,
                                         COMBINATOR_PATH_SIZE);
            if (answer != want || !holds(path, n, COMBINATOR_PATH_SIZE))
                fail("%s: case %zu: assembly of solution %zu answers %" PRIu32 ", or another path", f->name, cases, i, answer);
        }
    }
    printf("%s: %zu cases, %zu solutions, all as stored\n", f->name, cases, solutions);
}

/* An answer of a refusal's number, or with 0 of none, with the output zero after a refusal and nothing written past it. */
static void check_refusal(const struct file *f, size_t at, const char *call, uint32_t answer, size_t want, size_t out_len)
{
    size_t i;
    if (want ? answer != COMBINATOR_REFUSED + want : COMBINATOR_IS_REFUSAL(answer))
        fail("%s: case %zu: the answer of %s is %" PRIu32 ", not refusal %zu", f->name, at, call, answer, want);
    if (want && !holds(out, 0, out_len))
        fail("%s: case %zu: the output of %s is not zero", f->name, at, call);
    for (i = out_len; i < sizeof out; i++)
        if (out[i] != 0xa5)
            fail("%s: case %zu: %s has written past the output", f->name, at, call);
}

/* Routes are refused just where listing is. */
static void replay_refusals(struct file *f)
{
    size_t cases = 0;
    for (; f->at < f->len; cases++) {
        struct input c = take_input(f);
        size_t call = take_number(f, 1), out_len = take_number(f, 4), record_len = take_number(f, 2), want;
        const uint8_t *record = take(f, record_len);
        uint32_t answer;
        want = take_number(f, 1);
        if (out_len > sizeof out)
            fail("%s: case %zu: an output of %zu bytes", f->name, cases, out_len);
        memset(out, 0xa5, sizeof out);
        answer = call ? combinator_assemble(c.src, c.dst, c.book, c.book_len, record, record_len, out, out_len)
                      : combinator_list(c.src, c.dst, c.book, c.book_len, out, out_len);
        check_refusal(f, cases, call ? "assembly" : "listing", answer, want, out_len);
        if (call)
            continue;
        memset(out, 0xa5, sizeof out);
        answer = combinator_routes(c.src, c.dst, c.book, c.book_len, out, out_len);
        check_refusal(f, cases, "routes", answer, want, out_len);
    }
    printf("%s: %zu cases, all as stored\n", f->name, cases);
}

static void replay_routes(struct file *f)
{
    size_t cases = 0, routes = 0;
    for (; f->at < f->len; cases++) {
        struct input c = take_input(f);
        size_t out_len = take_number(f, 4), want = take_number(f, 1), count = take_number(f, 2);
        const uint8_t *records = take(f, COMBINATOR_RECORD_SIZE * count);
        uint32_t answer;
        if (out_len > sizeof out)
            fail("%s: case %zu: an output of %zu bytes", f->name, cases, out_len);
        memset(out, 0xa5, sizeof out);
        answer = combinator_routes(c.src, c.dst, c.book, c.book_len, out, out_len);
        check_refusal(f, cases, "routes", answer, want, out_len);
        if (!want && (answer != count || !holds(records, COMBINATOR_RECORD_SIZE * count, out_len)))
            fail("%s: case %zu: routes answers %" PRIu32 ", or other records", f->name, cases, answer);
        routes += count;
    }
    printf("%s: %zu cases, %zu routes, all as stored\n", f->name, cases, routes);
}

static void replay_wire(struct file *f)
{
    size_t cases = 0, written = 0, read = 0;
    for (; f->at < f->len; cases++) {
        size_t given_len = take_number(f, FRONT_SIZE), call, out_len, want, n;
        const uint8_t *given = take(f, given_len), *bytes;
        uint32_t answer;
        call = take_number(f, 1);
        out_len = take_number(f, 4);
        want = take_number(f, 1);
        n = take_number(f, 2);
        bytes = take(f, n);
        if (call > 1 || out_len > sizeof out)
            fail("%s: case %zu: call %zu, an output of %zu bytes", f->name, cases, call, out_len);
        memset(out, 0xa5, sizeof out);
        answer = call ? combinator_read(given, given_len, out, out_len) : combinator_write(given, given_len, out, out_len);
        check_refusal(f, cases, call ? "reading" : "writing", answer, want, out_len);
        if (!want && (answer != n || !holds(bytes, n, out_len)))
            fail("%s: case %zu: %s answers %" PRIu32 ", or other bytes", f->name, cases, call ? "reading" : "writing", answer);
        written += !want && !call;
        read += !want && call;
    }
    printf("%s: %zu cases, %zu written and %zu read, all as stored\n", f->name, cases, written, read);
}

int replay_mode(int args, char **arg)
{
    static void (*const replays[])(struct file *) = {replay_answers, replay_refusals, replay_routes, replay_wire};
    struct file f;
    int i;
    if (args != sizeof replays / sizeof *replays)
        usage("driver replay ANSWERS REFUSALS ROUTES WIRE");
    for (i = 0; i < args; i++) {
        f.name = arg[i];
        f.at = 0;
        f.data = read_file(f.name, &f.len);
        replays[i](&f);
        free(f.data);
    }
    return 0;
}
