/* How much stack each call of the archive needs. A call is made in a process of its own, the first that it makes, on a stack of a given length, below
 * which no byte may be touched; the least length on which it ends is found by halving. With the call are counted the C function that makes it and,
 * where the program is linked so, the finding of the C library's memcpy and memset. Reads examples/morning.sheet from standard input. Fails where a
 * call needs more than the header says, or answers otherwise than it should. A process that ends for want of stack says nothing, nor does an emulator
 * that it runs under. */
#define _GNU_SOURCE
#include <stdio.h>
#include <stdlib.h>
#include <sys/mman.h>
#include <sys/resource.h>
#include <sys/wait.h>
#include <ucontext.h>
#include <unistd.h>
#include "stringmoss.h"

#define MOST ((size_t)1 << 20)
#define WORDS STRINGMOSS_WORDS

static uint64_t book[WORDS], answer, a, b, c, d, e, f, why[4];
static uint8_t sheet[STRINGMOSS_SHEET + 1], bad[] = "0\n00\n", text[STRINGMOSS_TEXT], evening[STRINGMOSS_EVENING];
static size_t bytes;

static const uint64_t row[STRINGMOSS_WIDTH] = {7, 2500, 2000, 500, 10000, 2, 2, 8, 0, 50000, 1000000,
    0, 1000000, 1, 400000000, 50000, 50000, 100000, 95, 100, 100000, 100000, 0};
static const uint64_t other[STRINGMOSS_WIDTH] = {8, 2500, 2000, 500, 10000, 2, 2, 8, 0, 50000, 1000000,
    0, 1000000, 1, 400000000, 50000, 50000, 100000, 95, 100, 100000, 100000, 0};

static void opens(void) { answer = stringmoss_open(book, WORDS, other, STRINGMOSS_WIDTH); }
static void refuses_to_open(void) { answer = stringmoss_open(book, WORDS, row, STRINGMOSS_WIDTH); }
static void closes(void) { answer = stringmoss_close(book, WORDS, 7); }
static void refuses_to_close(void) { answer = stringmoss_close(book, WORDS, 8); }
static void sets(void) { answer = stringmoss_set_parameters(book, WORDS, 7, row + STRINGMOSS_AT_ALPHA, STRINGMOSS_PARAMETERS); }
static void refuses_to_set(void) { answer = stringmoss_set_parameters(book, WORDS, 7, row, STRINGMOSS_PARAMETERS); }
static void gives(void) { answer = stringmoss_give_day(book, WORDS, 7, 101, 103000, 6, 0, &a, &b, &c, &d, &e, &f); }
static void refuses_to_give(void) { answer = stringmoss_give_day(book, WORDS, 7, 101, 300000, 0, 0, &a, &b, &c, &d, &e, &f); }
static void explains(void) {
    answer = stringmoss_explain_day(book, WORDS, 7, 101, 103000, 6, 0, &a, &b, &c, &d, &e, &f, &why[0], &why[1], &why[2], &why[3]);
}
static void refuses_to_explain(void) {
    answer = stringmoss_explain_day(book, WORDS, 7, 101, 300000, 0, 0, &a, &b, &c, &d, &e, &f, &why[0], &why[1], &why[2], &why[3]);
}
static void asks(void) { answer = stringmoss_corridor_of(book, WORDS, 7, 73, -1000, 1000, 500, 2000, 50000, 20000, 1000, &a, &b); }
static void refuses_to_ask(void) { answer = stringmoss_corridor_of(book, WORDS, 7, 0, 0, 0, 0, 1, 0, 0, 1000000, &a, &b); }
static void asks_of_bond(void) {
    answer = stringmoss_bond_corridor_of(book, WORDS, 7, 73, -1000, 1000, 500, 2000, 50000, 20000, 1000, 100000, 500, 250, &a, &b);
}
static void refuses_to_ask_of_bond(void) {
    answer = stringmoss_bond_corridor_of(book, WORDS, 7, 0, 0, 0, 0, 1, 0, 0, 1000000, 1000000, 0, 0, &a, &b);
}
static void halts(void) { answer = stringmoss_set_halt(book, WORDS, 7, 1); }
static void refuses_to_halt(void) { answer = stringmoss_set_halt(book, WORDS, 8, 1); }
static void checks(void) { answer = stringmoss_check_sheet(sheet, bytes, &a, &b, &c); }
static void refuses_to_check(void) { answer = stringmoss_check_sheet(bad, sizeof bad - 1, &a, &b, &c); }
static void runs(void) { answer = stringmoss_run_sheet(book, WORDS, sheet, bytes, text, sizeof text, &a, &b, &c, &d); }
static void refuses_to_run(void) { answer = stringmoss_run_sheet(book, WORDS, bad, sizeof bad - 1, text, sizeof text, &a, &b, &c, &d); }
static void writes(void) { answer = stringmoss_evening_sheet(book, WORDS, evening, sizeof evening, &a); }
static void refuses_to_write(void) { answer = stringmoss_evening_sheet(book, WORDS, evening, 6, &a); }

static const struct {
    const char *name;
    void (*accepted)(void), (*refused)(void);
    size_t most;
} calls[] = {
    {"stringmoss_open", opens, refuses_to_open, STRINGMOSS_STACK_INSTRUMENT},
    {"stringmoss_close", closes, refuses_to_close, STRINGMOSS_STACK_INSTRUMENT},
    {"stringmoss_set_parameters", sets, refuses_to_set, STRINGMOSS_STACK_INSTRUMENT},
    {"stringmoss_give_day", gives, refuses_to_give, STRINGMOSS_STACK_INSTRUMENT},
    {"stringmoss_explain_day", explains, refuses_to_explain, STRINGMOSS_STACK_INSTRUMENT},
    {"stringmoss_corridor_of", asks, refuses_to_ask, STRINGMOSS_STACK_INSTRUMENT},
    {"stringmoss_bond_corridor_of", asks_of_bond, refuses_to_ask_of_bond, STRINGMOSS_STACK_INSTRUMENT},
    {"stringmoss_set_halt", halts, refuses_to_halt, STRINGMOSS_STACK_INSTRUMENT},
    {"stringmoss_check_sheet", checks, refuses_to_check, STRINGMOSS_STACK_SHEET},
    {"stringmoss_run_sheet", runs, refuses_to_run, STRINGMOSS_STACK_SHEET},
    {"stringmoss_evening_sheet", writes, refuses_to_write, STRINGMOSS_STACK_CALL},
};

/* Whether a call ends on so many bytes. None below them may be touched. */
static int ends(void (*call)(void), int accepted, size_t length) {
    int status;
    pid_t child = fork();
    if (child == 0) {
        static ucontext_t here, there;
        close(STDERR_FILENO);
        uint8_t *low = mmap(NULL, 2 * MOST, PROT_NONE, MAP_PRIVATE | MAP_ANONYMOUS, -1, 0);
        if (low == MAP_FAILED || mprotect(low + MOST, MOST, PROT_READ | PROT_WRITE) != 0 || getcontext(&there) != 0) _exit(2);
        there.uc_stack.ss_sp = low + MOST;
        there.uc_stack.ss_size = length;
        there.uc_link = &here;
        makecontext(&there, call, 0);
        _exit(swapcontext(&here, &there) == 0 && (answer == STRINGMOSS_DONE) == accepted ? 0 : 2);
    }
    if (child < 0 || waitpid(child, &status, 0) != child || (WIFEXITED(status) && WEXITSTATUS(status) != 0)) {
        fputs("compare: a call could not be tried, or answered otherwise than it should\n", stderr);
        exit(2);
    }
    return WIFEXITED(status);
}

static size_t needed(void (*call)(void), int accepted) {
    size_t few = 0, enough = MOST;
    if (!ends(call, accepted, enough)) {
        fputs("compare: a call did not end\n", stderr);
        exit(2);
    }
    while (few + 16 < enough) {
        size_t between = (few + enough) / 32 * 16;
        if (ends(call, accepted, between)) enough = between;
        else few = between;
    }
    return enough;
}

int main(void) {
    const struct rlimit none = {0, 0};
    int found = 0;
    setrlimit(RLIMIT_CORE, &none);
    for (size_t i = 0; i < STRINGMOSS_WIDTH; i++) book[i] = row[i];
    bytes = fread(sheet, 1, sizeof sheet, stdin);
    for (size_t i = 0; i < sizeof calls / sizeof *calls; i++) {
        size_t accepted = needed(calls[i].accepted, 1), refused = needed(calls[i].refused, 0);
        size_t most = accepted < refused ? refused : accepted;
        printf("compare: %s needs %zu bytes of stack, and the header says %zu\n", calls[i].name, most, calls[i].most);
        found |= calls[i].most < most;
    }
    return found;
}
