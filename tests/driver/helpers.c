/* helpers HEADER BOOK...: combinator_helpers.h against what it is to say and write. A program of its own, in C99 and C++11, for
 * tests/helpers, which makes texts.h of the texts that the Rust crate's tests have. HEADER is combinator.h, whose table has the words. */
#include "combinator_helpers.h"

#include <stdio.h>
#include <stdlib.h>

#include "texts.h"

#define CHECK(holds) ((holds) ? (void)checks++ : wrong(__LINE__, #holds))

static unsigned long checks;

static void wrong(int line, const char *what)
{
    fprintf(stderr, "helpers.c:%d: not so: %s\n", line, what);
    exit(1);
}

/* Memory of just so many bytes, so that the sanitizer sees a byte past it. */
static uint8_t *room_of(size_t size)
{
    uint8_t *room = (uint8_t *)malloc(size ? size : 1);
    if (!room)
        wrong(__LINE__, "memory");
    memset(room, 0xa5, size);
    return room;
}

static uint8_t *file(const char *name, size_t *length)
{
    FILE *f = fopen(name, "rb");
    uint8_t *bytes = room_of(4 * COMBINATOR_MAX_BOOK);
    if (!f)
        wrong(__LINE__, name);
    *length = fread(bytes, 1, 4 * COMBINATOR_MAX_BOOK, f);
    fclose(f);
    return bytes;
}

/* ---- Words */

static void words(const char *header)
{
    size_t length;
    char *text = (char *)file(header, &length), *line;
    uint32_t next = 1;
    text[length] = '\0';
    for (line = strtok(text, "\n"); line; line = strtok(NULL, "\n")) {
        unsigned number;
        char word[16];
        if (next <= COMBINATOR_LAST_REFUSAL && sscanf(line, " * %u %15[A-Za-z] ", &number, word) == 2 && number == next) {
            CHECK(strcmp(combinator_word(COMBINATOR_REFUSED + number), word) == 0);
            next++;
        }
    }
    CHECK(next == COMBINATOR_LAST_REFUSAL + 1);
    CHECK(*combinator_word(0) == '\0' && *combinator_word(COMBINATOR_MAX_SOLUTIONS) == '\0');
    CHECK(*combinator_word(COMBINATOR_REFUSED) == '\0' && *combinator_word(UINT32_MAX) == '\0');
    CHECK(*combinator_word(COMBINATOR_REFUSED + COMBINATOR_LAST_REFUSAL + 1) == '\0');
    free(text);
}

/* ---- ISD-ASes */

static void both_ways(uint64_t number, const char *text)
{
    char *room = (char *)room_of(COMBINATOR_AS_TEXT_SIZE);
    uint64_t read = ~number;
    CHECK(combinator_as_write(number, room) == room);
    CHECK(strcmp(room, text) == 0);
    CHECK(combinator_as_read(text, &read) == 1 && read == number);
    free(room);
}

static void ases(void)
{
    size_t i;
    uint64_t n = 1;
    for (i = 0; i < sizeof isd_ases / sizeof *isd_ases; i++)
        both_ways(isd_ases[i].number, isd_ases[i].text);
    for (i = 0; i < sizeof others / sizeof *others; i++) {
        uint64_t read = 7;
        CHECK(combinator_as_read(others[i], &read) == 0 && read == 7);
    }
    for (i = 0; i < 10000; i++) {
        char text[64];
        uint64_t as, read = 0;
        /* Knuth's multiplier; the shift spreads over every width. */
        n = n * UINT64_C(6364136223846793005) + 1;
        as = n ^ n >> (n >> 58);
        CHECK(combinator_as_read(combinator_as_write(as, text), &read) == 1 && read == as);
        /* Three groups are read for every AS. */
        sprintf(text, "%u-%04X:%x:%04x", (unsigned)(as >> 48), (unsigned)(as >> 32 & 0xffff), (unsigned)(as >> 16 & 0xffff), (unsigned)(as & 0xffff));
        CHECK(combinator_as_read(text, &read) == 1 && read == as);
    }
}

/* ---- Numbers */

static void numbers(void)
{
    uint8_t at[10] = {9, 9, 9, 9, 9, 9, 9, 9, 9, 9};
    combinator_put(at + 1, 8, UINT64_C(0x0102030405060708));
    CHECK(memcmp(at, "\x09\x01\x02\x03\x04\x05\x06\x07\x08\x09", 10) == 0);
    CHECK(combinator_number(at + 2, 3) == 0x020304 && combinator_number(at + 1, 8) == UINT64_C(0x0102030405060708) && combinator_number(at, 0) == 0);
    combinator_put(at + 4, 2, 0x12345);
    CHECK(memcmp(at, "\x09\x01\x02\x03\x23\x45\x06\x07\x08\x09", 10) == 0);
}

/* ---- Books */

/* The worked example of docs/SPECIFICATION.md 10.6. */
static const struct combinator_entry first = {UINT64_C(0x0001ff0000000110), 1500, 0, {63, 0, 5, {1, 2, 3, 4, 5, 6}}};
static const struct combinator_entry leaf = {UINT64_C(0x0001ff0000000111), 1400, 1350, {63, 7, 0, {10, 11, 12, 13, 14, 15}}};
static const struct combinator_peer peer = {UINT64_C(0x0001ff0000000112), 2, 1400, {62, 9, 5, {240, 241, 242, 243, 244, 245}}};

/* Writes `first` with another AS. */
static uint32_t write_as(struct combinator_writer *w, uint64_t as)
{
    struct combinator_entry entry = first;
    entry.as = as;
    return combinator_write_entry(w, &entry);
}

static int accepted(const struct combinator_writer *w)
{
    static uint8_t list[COMBINATOR_LIST_SIZE];
    return !COMBINATOR_IS_REFUSAL(combinator_list(first.as, leaf.as, w->book, w->length, list, sizeof list));
}

static uint32_t worked(struct combinator_writer *w, uint8_t *room, size_t room_len)
{
    uint32_t answer = combinator_write_book(w, room, room_len);
    if (!answer)
        answer = combinator_write_non_core(w, 1000000, 0x1234);
    if (!answer)
        answer = combinator_write_entry(w, &first);
    return answer ? answer : combinator_write_entry(w, &leaf);
}

static struct combinator_hop hop_at(const uint8_t *units, const uint8_t *ingress, const uint8_t *egress, const uint8_t *mac)
{
    struct combinator_hop hop;
    hop.units = *units;
    hop.ingress = (uint16_t)combinator_number(ingress, 2);
    hop.egress = (uint16_t)combinator_number(egress, 2);
    memcpy(hop.mac, mac, COMBINATOR_MAC_SIZE);
    return hop;
}

static struct combinator_entry entry_at(const uint8_t *at)
{
    struct combinator_entry entry;
    entry.as = combinator_number(at + COMBINATOR_ENTRY_AS, COMBINATOR_AS_SIZE);
    entry.mtu = (uint32_t)combinator_number(at + COMBINATOR_ENTRY_MTU, 4);
    entry.ingress_mtu = (uint16_t)combinator_number(at + COMBINATOR_ENTRY_INGRESS_MTU, 2);
    entry.hop = hop_at(at + COMBINATOR_ENTRY_UNITS, at + COMBINATOR_ENTRY_INGRESS, at + COMBINATOR_ENTRY_EGRESS, at + COMBINATOR_ENTRY_MAC);
    return entry;
}

static struct combinator_peer peer_at(const uint8_t *at)
{
    struct combinator_peer found;
    found.as = combinator_number(at + COMBINATOR_PEER_AS, COMBINATOR_AS_SIZE);
    found.interface_id = (uint16_t)combinator_number(at + COMBINATOR_PEER_INTERFACE, 2);
    found.mtu = (uint16_t)combinator_number(at + COMBINATOR_PEER_MTU, 2);
    found.hop = hop_at(at + COMBINATOR_PEER_UNITS, at + COMBINATOR_PEER_INGRESS, at + COMBINATOR_PEER_EGRESS, at + COMBINATOR_PEER_MAC);
    return found;
}

/* Writes the segments of one kind of an accepted book; `first_refusal` is the first refusal met. */
static void write_kind(struct combinator_writer *w, const uint8_t *book, int core, uint32_t *first_refusal)
{
    unsigned cores = (unsigned)combinator_number(book + COMBINATOR_COUNTS_CORES, 2);
    unsigned all = cores + (unsigned)combinator_number(book + COMBINATOR_COUNTS_NON_CORES, 2), i;
    const uint8_t *head = book + COMBINATOR_COUNTS_SIZE, *at = head + (size_t)COMBINATOR_HEAD_SIZE * all;
    for (i = 0; i < all; i++, head += COMBINATOR_HEAD_SIZE) {
        uint32_t timestamp = (uint32_t)combinator_number(head + COMBINATOR_HEAD_TIMESTAMP, 4), answer;
        uint16_t id = (uint16_t)combinator_number(head + COMBINATOR_HEAD_ID, 2);
        unsigned entries = (unsigned)combinator_number(head + COMBINATOR_HEAD_ENTRY_COUNT, 2), peers, e, p;
        if ((i < cores) != core) {
            at += combinator_number(head + COMBINATOR_HEAD_BODY_LENGTH, 2);
            continue;
        }
        answer = core ? combinator_write_core(w, timestamp, id) : combinator_write_non_core(w, timestamp, id);
        for (e = 0; e < entries; e++) {
            struct combinator_entry entry = entry_at(at);
            uint32_t given = combinator_write_entry(w, &entry);
            answer = answer ? answer : given;
            peers = at[COMBINATOR_ENTRY_PEER_COUNT];
            at += COMBINATOR_ENTRY_SIZE;
            for (p = 0; p < peers; p++, at += COMBINATOR_PEER_SIZE) {
                struct combinator_peer found = peer_at(at);
                given = combinator_write_peer(w, &found);
                answer = answer ? answer : given;
            }
        }
        *first_refusal = *first_refusal ? *first_refusal : answer;
    }
}

static uint32_t rewrite(struct combinator_writer *w, const uint8_t *book, int cores_first, size_t room_len, uint8_t *room)
{
    uint32_t answer = combinator_write_book(w, room, room_len);
    write_kind(w, book, cores_first, &answer);
    write_kind(w, book, !cores_first, &answer);
    return answer;
}

static void examples(char **names, int count)
{
    struct combinator_writer w;
    uint8_t *book, *room;
    size_t length, size;
    int i, cores_first;
    for (i = 0; i < count; i++) {
        book = file(names[i], &length);
        for (cores_first = 0; cores_first < 2; cores_first++)
            for (size = 0; size <= length + 1; size++) {
                uint32_t answer;
                room = room_of(size);
                answer = rewrite(&w, book, cores_first, size, room);
                /* The room may be just as long as the book; what does not fit is left out, and the book goes on without it. */
                CHECK(size < length ? answer == COMBINATOR_OVERSIZE : answer == 0 && w.length == length && memcmp(room, book, length) == 0);
                CHECK(w.length <= size && w.book == room && (size < COMBINATOR_COUNTS_SIZE ? w.length == 0 : accepted(&w)));
                free(room);
            }
        free(book);
    }
    /* Written by hand. */
    book = file(names[0], &length);
    room = room_of(COMBINATOR_MAX_BOOK);
    CHECK(worked(&w, room, COMBINATOR_MAX_BOOK) == 0 && w.length == length && memcmp(room, book, length) == 0);
    free(room);
    free(book);
}

/* After a refusal the book is what it was before the segment, and the rest of the segment is refused likewise. */
static void refused(struct combinator_writer *w, const uint8_t *before, size_t length, uint32_t refusal)
{
    CHECK(w->length == length && memcmp(w->book, before, length) == 0);
    CHECK(combinator_write_entry(w, &leaf) == refusal && combinator_write_peer(w, &peer) == refusal);
    CHECK(w->length == length && memcmp(w->book, before, length) == 0 && accepted(w));
}

/* Each refusal, of a core and of a non-core segment, after one of each kind. */
static void refusals(int core)
{
    struct combinator_writer w;
    uint8_t *room = room_of(2 * COMBINATOR_MAX_BOOK), *before = room_of(COMBINATOR_MAX_BOOK);
    uint32_t answer;
    size_t length;
    unsigned i, p;
#define BEGIN() (core ? combinator_write_core(&w, 3, 4) : combinator_write_non_core(&w, 3, 4))
    CHECK(combinator_write_book(&w, room, 2 * COMBINATOR_MAX_BOOK) == 0);
    CHECK(w.length == COMBINATOR_COUNTS_SIZE && accepted(&w));
    memcpy(before, room, w.length);
    refused(&w, before, w.length, COMBINATOR_MISFIT);
    CHECK(combinator_write_peer(&w, &peer) == COMBINATOR_MISFIT);

    CHECK(combinator_write_non_core(&w, 1, 1) == 0 && combinator_write_entry(&w, &first) == 0 && combinator_write_peer(&w, &peer) == 0);
    CHECK(combinator_write_core(&w, 2, 2) == 0 && combinator_write_entry(&w, &first) == 0 && combinator_write_entry(&w, &leaf) == 0);
    length = w.length;
    memcpy(before, room, length);

    CHECK(BEGIN() == 0 && combinator_write_peer(&w, &peer) == COMBINATOR_MISFIT);
    refused(&w, before, length, COMBINATOR_MISFIT);
    CHECK(BEGIN() == 0);
    for (i = 0; i < COMBINATOR_MAX_ENTRIES; i++)
        CHECK(write_as(&w, i) == 0 && accepted(&w));
    /* Before Twice, as in a book. */
    CHECK(write_as(&w, 0) == COMBINATOR_LONG);
    refused(&w, before, length, COMBINATOR_LONG);
    CHECK(BEGIN() == 0 && combinator_write_entry(&w, &first) == 0);
    for (i = 0; i < COMBINATOR_MAX_PEERS; i++)
        CHECK(combinator_write_peer(&w, &peer) == 0 && accepted(&w));
    CHECK(combinator_write_peer(&w, &peer) == COMBINATOR_PEERS);
    refused(&w, before, length, COMBINATOR_PEERS);

    /* An AS twice, at every two entries, behind peers too; the segments before have these ASes, and that is none. */
    for (i = 1; i < COMBINATOR_MAX_ENTRIES; i++)
        for (p = 0; p < i; p++) {
            unsigned e;
            CHECK(BEGIN() == 0);
            for (e = 0; e < i; e++)
                CHECK(write_as(&w, first.as + e) == 0 && (e % 3 || combinator_write_peer(&w, &peer) == 0) && accepted(&w));
            CHECK(write_as(&w, first.as + p) == COMBINATOR_TWICE);
            refused(&w, before, length, COMBINATOR_TWICE);
        }
    /* Another bit, of the ISD or of the AS number, is another AS; that of a peer is none. */
    for (i = 0; i < 64; i++) {
        CHECK(BEGIN() == 0 && write_as(&w, first.as) == 0 && write_as(&w, first.as ^ UINT64_C(1) << i) == 0 && accepted(&w));
        CHECK(write_as(&w, first.as) == COMBINATOR_TWICE);
        refused(&w, before, length, COMBINATOR_TWICE);
    }
    CHECK(BEGIN() == 0 && write_as(&w, peer.as) == 0 && combinator_write_peer(&w, &peer) == 0 && write_as(&w, first.as) == 0 && accepted(&w));
    CHECK(combinator_write_peer(&w, &peer) == 0 && write_as(&w, peer.as) == COMBINATOR_TWICE);
    refused(&w, before, length, COMBINATOR_TWICE);

    /* Full segments up to the longest book, in a room that is longer. */
    for (answer = 0; !answer;) {
        length = w.length;
        memcpy(before, room, length);
        answer = BEGIN();
        for (i = 0; !answer && i < COMBINATOR_MAX_ENTRIES; i++) {
            answer = write_as(&w, i);
            for (p = 0; !answer && p < COMBINATOR_MAX_PEERS; p++)
                answer = combinator_write_peer(&w, &peer);
        }
    }
    CHECK(answer == COMBINATOR_OVERSIZE);
    refused(&w, before, length, COMBINATOR_OVERSIZE);

    CHECK(combinator_write_book(&w, room, 2 * COMBINATOR_MAX_BOOK) == 0);
    for (i = 0; i < COMBINATOR_MAX_SEGMENTS; i++)
        CHECK((i % 3 ? combinator_write_core(&w, 3, 4) : combinator_write_non_core(&w, 5, 6)) == 0 && combinator_write_entry(&w, &leaf) == 0);
    length = w.length;
    memcpy(before, room, length);
    CHECK(BEGIN() == COMBINATOR_CROWDED);
    refused(&w, before, length, COMBINATOR_CROWDED);
    free(room);
    free(before);
}

int main(int args, char **arg)
{
    if (args < 3)
        return 2;
    words(arg[1]);
    ases();
    numbers();
    examples(arg + 2, args - 2);
    refusals(0);
    refusals(1);
    printf("%lu\n", checks);
    return 0;
}
