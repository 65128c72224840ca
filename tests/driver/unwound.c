/* A program of its own, for tests/unwind: the library's unwind tables against what really happens.
 *
 *     unwound meet ROWS CODE MET STORED...
 *
 * replays the stored calls of these files, as `driver replay` does, and stops before the instructions of the library, each the first times that it is met.
 * There the row of ROWS for it must give the place of the return address, and the caller's registers as they were at the call. CODE has
 * the addresses of the instructions, each with 1 where a function starts, else 0. MET gets the addresses met.
 *
 *     unwound fault BOOK
 *
 * calls the library with buffers whose memory ends early, and walks from each fault with backtrace(): it must come by the caller. */
#include <execinfo.h>
#include <inttypes.h>
#include <setjmp.h>
#include <signal.h>
#include <stdio.h>
#include <string.h>
#include <sys/mman.h>
#include <ucontext.h>

#include "combinator.h"
#include "common.h"

int replay_mode(int args, char **arg);

static uint8_t other_stack[1 << 16];

static void handle(int signal, void (*handler)(int, siginfo_t *, void *))
{
    struct sigaction action;
    stack_t stack;
    memset(&action, 0, sizeof action);
    memset(&stack, 0, sizeof stack);
    stack.ss_sp = other_stack;
    stack.ss_size = sizeof other_stack;
    action.sa_sigaction = handler;
    action.sa_flags = SA_SIGINFO | SA_ONSTACK;
    if (sigaltstack(&stack, NULL) || sigaction(signal, &action, NULL))
        fail("a handler");
}

/* ---- Stops */

/* The registers that a row may name, by DWARF's numbers, and the place of each in a signal's context. */
#define REGISTERS 16
static const int context_place[REGISTERS] = {REG_RAX, REG_RDX, REG_RCX, REG_RBX, REG_RSI, REG_RDI, REG_RBP, REG_RSP,
                                             REG_R8,  REG_R9,  REG_R10, REG_R11, REG_R12, REG_R13, REG_R14, REG_R15};
/* Those that a function hands back as they were. */
#define KEPT 6
static const int kept[KEPT] = {3, 6, 12, 13, 14, 15};

/* From `start` to before `end`: the CFA is a register plus an offset; a kept register lies so far below it, or with 0 is as it was. */
struct row {
    uint64_t start, end, cfa_register, cfa_offset, below[KEPT];
};

/* An instruction: its first byte, which a breakpoint replaces while it is `stopped` at; how often it was met; where its function starts,
 * and does it there. */
struct instruction {
    const struct row *row;
    uint64_t function;
    uint8_t byte, stopped, entry;
    unsigned met;
};

#define BREAKPOINT 0xcc
#define TRAP_FLAG 0x100
#define PAGE 4096
#define MOST_CODE ((size_t)1 << 20)
/* Stops at one instruction; the start of a function is stopped at each time, since the call is noted there, but not without end. */
#define MOST_STOPS 4
#define MOST_ENTRIES 20000
static struct instruction code[MOST_CODE];
static uint64_t code_start, code_end, stops;
static struct instruction *passing; /* runs without its breakpoint, for one instruction */

/* The calls that were noted. One has returned where the stack pointer has passed its return address, or another function runs. */
struct frame {
    uint64_t function, return_place, kept[KEPT];
};
static struct frame frames[64];
static unsigned depth;

static uint64_t word_at(uint64_t address)
{
    uint64_t word;
    memcpy(&word, (const void *)(uintptr_t)address, sizeof word);
    return word;
}

static void stop_at(struct instruction *i, int stopped)
{
    uint8_t *at = (uint8_t *)(uintptr_t)(code_start + (uint64_t)(i - code));
    i->stopped = (uint8_t)stopped;
    *at = stopped ? BREAKPOINT : i->byte;
}

static void note_call(uint64_t function, const greg_t *registers)
{
    int k;
    while (depth && frames[depth - 1].return_place <= (uint64_t)registers[REG_RSP])
        depth--;
    if (depth == sizeof frames / sizeof *frames)
        fail("calls too deep");
    frames[depth].function = function;
    frames[depth].return_place = (uint64_t)registers[REG_RSP];
    for (k = 0; k < KEPT; k++)
        frames[depth].kept[k] = (uint64_t)registers[context_place[kept[k]]];
    depth++;
}

static void check(uint64_t pc, const struct row *r, const greg_t *registers)
{
    const struct frame *f = &frames[depth - 1];
    uint64_t cfa = (uint64_t)registers[context_place[r->cfa_register]] + r->cfa_offset;
    int k;
    if (!depth)
        fail("%" PRIx64 ": a function that was not called", pc);
    if (cfa != f->return_place + 8)
        fail("%" PRIx64 ": the table's CFA is %" PRIx64 ", the call's %" PRIx64, pc, cfa, f->return_place + 8);
    for (k = 0; k < KEPT; k++) {
        uint64_t now;
        if (r->below[k] && cfa - r->below[k] < (uint64_t)registers[REG_RSP])
            fail("%" PRIx64 ": register %d is said to lie below the stack, where a signal may write", pc, kept[k]);
        now = r->below[k] ? word_at(cfa - r->below[k]) : (uint64_t)registers[context_place[kept[k]]];
        if (now != f->kept[k])
            fail("%" PRIx64 ": register %d is %" PRIx64 " by the table, at the call it was %" PRIx64, pc, kept[k], now, f->kept[k]);
    }
    stops++;
}

/* No more stops in the function that starts here: its calls are no longer noted. */
static void leave_alone(struct instruction *i)
{
    do {
        if (i->stopped)
            stop_at(i, 0);
        i++;
    } while (i < code + (code_end - code_start) && !i->entry);
}

static void on_stop(int signal, siginfo_t *info, void *given)
{
    greg_t *registers = ((ucontext_t *)given)->uc_mcontext.gregs;
    uint64_t pc = (uint64_t)registers[REG_RIP] - 1;
    struct instruction *i;
    (void)signal, (void)info;
    if (passing) {
        stop_at(passing, 1);
        passing = NULL;
        registers[REG_EFL] &= ~TRAP_FLAG;
        return;
    }
    i = &code[pc - code_start];
    if (pc < code_start || pc >= code_end || !i->stopped)
        fail("%" PRIx64 ": a stop that is none", pc);
    if (i->entry)
        note_call(pc, registers);
    while (depth && (frames[depth - 1].return_place < (uint64_t)registers[REG_RSP] || frames[depth - 1].function != i->function))
        depth--;
    check(pc, i->row, registers);
    registers[REG_RIP] = (greg_t)pc;
    stop_at(i, 0);
    i->met++;
    if (i->entry && i->met == MOST_ENTRIES) {
        leave_alone(i);
    } else if (i->entry || i->met < MOST_STOPS) {
        passing = i;
        registers[REG_EFL] |= TRAP_FLAG;
    }
}

static void read_rows(const char *name)
{
    FILE *f = fopen(name, "r");
    struct row r;
    uint64_t at;
    if (!f)
        fail("%s", name);
    while (fscanf(f, "%" SCNu64 "%" SCNu64 "%" SCNu64 "%" SCNu64 "%" SCNu64 "%" SCNu64 "%" SCNu64 "%" SCNu64 "%" SCNu64 "%" SCNu64, &r.start, &r.end,
                  &r.cfa_register, &r.cfa_offset, &r.below[0], &r.below[1], &r.below[2], &r.below[3], &r.below[4], &r.below[5]) == 10) {
        struct row *stored = resize(NULL, sizeof r);
        if (!code_start)
            code_start = r.start; /* rows stand in order */
        if (r.end < r.start || r.start < code_start || r.end - code_start > MOST_CODE || r.cfa_register >= REGISTERS)
            fail("%s: a row at %" PRIx64, name, r.start);
        *stored = r;
        code_end = r.end;
        for (at = r.start; at < r.end; at++)
            code[at - code_start].row = stored;
    }
    fclose(f);
}

static void read_code(const char *name)
{
    FILE *f = fopen(name, "r");
    uint64_t at, first = code_start / PAGE * PAGE, function = 0;
    unsigned entry;
    if (!f || mprotect((void *)(uintptr_t)first, code_end - first, PROT_READ | PROT_WRITE | PROT_EXEC))
        fail("%s, or its code cannot be written", name);
    while (fscanf(f, "%" SCNu64 "%u", &at, &entry) == 2) {
        struct instruction *i = &code[at - code_start];
        if (at < code_start || at >= code_end || !i->row)
            fail("%s: no row for %" PRIx64, name, at);
        i->entry = (uint8_t)entry;
        i->function = function = entry ? at : function;
        i->byte = *(const uint8_t *)(uintptr_t)at;
        stop_at(i, 1);
    }
    fclose(f);
}

static int meet_mode(int args, char **arg)
{
    FILE *f;
    size_t i;
    handle(SIGTRAP, on_stop);
    read_rows(arg[0]);
    read_code(arg[1]);
    if (replay_mode(args - 3, arg + 3))
        return 1;
    f = fopen(arg[2], "w");
    for (i = 0; f && i < MOST_CODE; i++)
        if (code[i].met)
            fprintf(f, "%" PRIu64 "\n", code_start + i);
    if (!f || fclose(f))
        fail("%s", arg[2]);
    printf("%" PRIu64 " stops\n", stops);
    return 0;
}

/* ---- Faults */

static sigjmp_buf back;
static void *landmark; /* the return address of the function that calls the library */
static uint64_t faults, reached;
static uint64_t places[4096], place_count;

static void on_fault(int signal, siginfo_t *info, void *given)
{
    void *found[64];
    uint64_t pc = (uint64_t)((ucontext_t *)given)->uc_mcontext.gregs[REG_RIP], i;
    int n = backtrace(found, 64), k;
    (void)signal, (void)info;
    faults++;
    for (k = 0; k < n; k++)
        if (found[k] == landmark) {
            reached++;
            break;
        }
    for (i = 0; i < place_count && places[i] != pc; i++)
        ;
    if (i == place_count && i < sizeof places / sizeof *places)
        places[place_count++] = pc;
    siglongjmp(back, 1);
}

#define PAGES 20 /* before the one that cannot be touched: more than the longest book or list here */

/* Memory of which `shown` bytes can be touched, and no more. */
static uint8_t *short_memory(int which, size_t shown)
{
    static uint8_t *area[3];
    if (!area[which]) {
        area[which] = mmap(NULL, (PAGES + 1) * PAGE, PROT_READ | PROT_WRITE, MAP_PRIVATE | MAP_ANONYMOUS, -1, 0);
        if (area[which] == MAP_FAILED || mprotect(area[which] + PAGES * PAGE, PAGE, PROT_NONE))
            fail("a page");
    }
    return area[which] + PAGES * PAGE - shown;
}

static uint32_t answer;

enum kind { LISTING, ROUTES, ASSEMBLY, WRITING, READING };

/* Of a book, or of a path or wire. Neither inlined nor left by a jump, so that its own return address stands on the stack. */
__attribute__((noinline)) static int attempt(enum kind kind, const uint8_t *given, size_t given_len, const uint8_t *record, uint8_t *out, size_t out_len)
{
    const uint64_t src = UINT64_C(0x0001ff0000000131), dst = UINT64_C(0x0001ff0000000141);
    landmark = __builtin_return_address(0);
    if (sigsetjmp(back, 1))
        return 1;
    switch (kind) {
    case LISTING:
        answer = combinator_list(src, dst, given, given_len, out, out_len);
        break;
    case ROUTES:
        answer = combinator_routes(src, dst, given, given_len, out, out_len);
        break;
    case WRITING:
        answer = combinator_write(given, given_len, out, out_len);
        break;
    case READING:
        answer = combinator_read(given, given_len, out, out_len);
        break;
    default:
        answer = combinator_assemble(src, dst, given, given_len, record, COMBINATOR_RECORD_SIZE, out, out_len);
    }
    return 0;
}

/* Every call that ends within what is given, and then within the output; how many faults came of either. */
static void fault_wire(enum kind kind, const uint8_t *given, size_t length)
{
    static uint8_t out[COMBINATOR_PATH_SIZE];
    uint64_t before = faults, read;
    uint8_t *memory;
    size_t i;
    for (i = 0; i < length; i++) {
        memory = short_memory(0, i);
        memcpy(memory, given, i);
        attempt(kind, memory, length, NULL, out, sizeof out);
    }
    read = faults - before;
    for (i = 0; i < sizeof out; i += 7)
        attempt(kind, given, length, NULL, short_memory(2, i), sizeof out);
    if (!read || faults - before == read)
        fail("fewer faults of paths and wires than expected");
}

static int fault_mode(char **arg)
{
    static uint8_t list[COMBINATOR_LIST_SIZE], path[COMBINATOR_PATH_SIZE], wire[COMBINATOR_WIRE_SIZE];
    size_t length, i;
    const uint8_t *book = read_file(arg[0], &length);
    uint8_t *memory, record[COMBINATOR_RECORD_SIZE];
    uint64_t listed;
    void *first[4];
    backtrace(first, 4); /* what it loads is loaded outside the handler */
    handle(SIGSEGV, on_fault);
    if (attempt(LISTING, book, length, book, list, sizeof list) || COMBINATOR_IS_REFUSAL(answer) || answer < 1)
        fail("no list of %s", arg[0]);
    memcpy(record, list, sizeof record);
    for (i = 0; i < length; i++) {
        memory = short_memory(0, i);
        memcpy(memory, book, i);
        attempt(LISTING, memory, length, book, list, sizeof list);
        attempt(ROUTES, memory, length, book, list, sizeof list);
        attempt(ASSEMBLY, memory, length, record, path, sizeof path);
    }
    for (i = 0; i < sizeof record; i++) {
        memory = short_memory(1, i);
        memcpy(memory, record, i);
        attempt(ASSEMBLY, book, length, memory, path, sizeof path);
    }
    listed = faults;
    for (i = 0; i < sizeof path; i += 7) {
        attempt(LISTING, book, length, book, short_memory(2, i), sizeof path);
        attempt(ROUTES, book, length, book, short_memory(2, i), sizeof path);
        attempt(ASSEMBLY, book, length, record, short_memory(2, i), sizeof path);
    }
    if (listed < length || faults == listed)
        fail("fewer faults than expected");
    if (attempt(ASSEMBLY, book, length, record, path, sizeof path) || answer != COMBINATOR_PATH)
        fail("no path of %s", arg[0]);
    fault_wire(WRITING, path, path_length(path));
    if (attempt(WRITING, path, sizeof path, NULL, wire, sizeof wire) || COMBINATOR_IS_REFUSAL(answer))
        fail("a path of %s is not written", arg[0]);
    fault_wire(READING, wire, answer);
    printf("%" PRIu64 " faults at %" PRIu64 " places, %" PRIu64 " walks reach the caller\n", faults, place_count, reached);
    return reached == faults ? 0 : 1;
}

int main(int args, char **arg)
{
    if (args > 5 && !strcmp(arg[1], "meet"))
        return meet_mode(args - 2, arg + 2);
    if (args == 3 && !strcmp(arg[1], "fault"))
        return fault_mode(arg + 2);
    usage("unwound meet ROWS CODE MET STORED... | fault BOOK");
    return 2;
}
