// The stack that the calls take: stack < crates/test_tables/stdin, tables as lines of hex. Each call
// runs on a painted stack; all from the lowest byte that is no longer painted was used. Ends with 0
// if no call takes more than docs/INTEGRATORS.md says.

#define _XOPEN_SOURCE 700

#include "glasspuddle.h"
#include <stdbool.h>
#include <stdio.h>
#include <string.h>
#include <ucontext.h>

#define STACK_BYTES 262144
#define PAINT 0xC5
#define LINE_BYTES 9000

// What runs on the painted stack. Nothing shows what the painting itself takes.
enum call { NOTHING, CHECK, OPEN, ROW, CLOSE, DRAIN };

// The largest use seen of a kind of call, and what the page says.
struct use {
    const char *name;
    size_t most;
    size_t said;
};

static struct use checking = {"check and open", 0, 57344};
static struct use going = {"row, close and drain with the record of the table", 0, 5008};
static struct use strange = {"row, close and drain with another record or a refused table", 0,
                             57344};

static _Alignas(16) uint8_t stack[STACK_BYTES];
static ucontext_t here, there;
static enum call wanted;

static uint8_t table[LINE_BYTES / 2];
static size_t length;
static const uint32_t row[GLASSPUDDLE_INPUTS_MOST];
static uint32_t store[GLASSPUDDLE_STORE_MOST];
static uint8_t out[GLASSPUDDLE_ROOM_MOST];
static glasspuddle_record record;
static glasspuddle_checked checked;
static glasspuddle_told told;

static void make_call(void) {
    size_t inputs = checked.number == GLASSPUDDLE_ACCEPTED ? table[GLASSPUDDLE_INPUTS_AT] : 0;
    switch (wanted) {
    case NOTHING:
        break;
    case CHECK:
        checked = glasspuddle_check(table, length);
        break;
    case OPEN:
        told = glasspuddle_open(&record, table, length, store, GLASSPUDDLE_STORE_MOST);
        break;
    case ROW:
        told = glasspuddle_row(&record, table, length, store, GLASSPUDDLE_STORE_MOST, row, inputs,
                               out, sizeof out);
        break;
    case CLOSE:
        told = glasspuddle_close(&record, table, length);
        break;
    case DRAIN:
        told = glasspuddle_drain(&record, table, length, store, GLASSPUDDLE_STORE_MOST, out,
                                 sizeof out);
        break;
    }
}

static size_t painted_over(enum call call) {
    wanted = call;
    memset(stack, PAINT, sizeof stack);
    getcontext(&there);
    there.uc_stack.ss_sp = stack;
    there.uc_stack.ss_size = sizeof stack;
    there.uc_link = &here;
    makecontext(&there, make_call, 0);
    swapcontext(&here, &there);
    size_t untouched = 0;
    while (untouched < sizeof stack && stack[untouched] == PAINT) {
        untouched++;
    }
    return sizeof stack - untouched;
}

static void measure(struct use *use, enum call call) {
    size_t taken = painted_over(call) - painted_over(NOTHING);
    if (use->most < taken) {
        use->most = taken;
    }
}

static void measure_all(struct use *use) {
    measure(use, ROW);
    measure(use, CLOSE);
    measure(use, DRAIN);
}

// The table of this line: two hex digits for each byte, - for none. False for a comment.
static bool read_table(const char *line) {
    unsigned byte;
    length = 0;
    if (line[0] == '#') {
        return false;
    }
    while (sscanf(line + 2 * length, "%2x", &byte) == 1) {
        table[length] = (uint8_t)byte;
        length++;
    }
    return true;
}

static void measure_table(void) {
    measure(&checking, CHECK);
    measure(&checking, OPEN);
    if (told.number == GLASSPUDDLE_ACCEPTED) {
        measure_all(&going);
    }
    memset(&record, 0, sizeof record);
    measure_all(&strange);
}

static bool report(const struct use *use) {
    printf("stack: %zu bytes, said to be %zu at most: %s\n", use->most, use->said, use->name);
    return 0 < use->most && use->most <= use->said;
}

int main(void) {
    static char line[LINE_BYTES];
    while (fgets(line, sizeof line, stdin) != NULL) {
        if (read_table(line)) {
            measure_table();
        }
    }
    bool good = report(&checking);
    good = report(&going) && good;
    good = report(&strange) && good;
    return good ? 0 : 1;
}
