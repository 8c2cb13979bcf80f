// A dock in C: one record, one store, fixed buffers, nothing allocated. It reads the program's
// input (document 01, "The program"), takes each row as soon as it is whole, prints the program's
// lines and acts on triggers. In firmware, `read_more` is the link and `act` the switch.
//
// A broken link must not look like the end of a run. What a signal interrupts is tried again at
// once, what isn't ready when poll says that it is. Any other failed read or write stops the dock:
// no further line, no closing, no `end`, a message on standard error.
//
// Exit status: 0 the run ended, its last line is `end N`; 1 reading or writing failed; 2 there was
// no run, since the first byte is wrong, the table is refused or the input stops before the rows:
// the last line is an `r` or an `s`.

#define _POSIX_C_SOURCE 200809L

#include "glasspuddle.h"
#include <errno.h>
#include <inttypes.h>
#include <poll.h>
#include <signal.h>
#include <stdarg.h>
#include <stdbool.h>
#include <stdio.h>
#include <stdlib.h>
#include <string.h>
#include <unistd.h>

#define KIND_STREAM 0x60
#define WORD_BYTES 4

enum status { ENDED = 0, FAILED = 1, NO_RUN = 2 };

// The largest that any table asks for, so refusals 11 and 16 can't occur. A dock with one fixed
// table takes what the check announces for it: table A needs 4 words and 26 bytes.
static uint8_t table[GLASSPUDDLE_TABLE_MOST];
static uint32_t store[GLASSPUDDLE_STORE_MOST];
static uint8_t out[GLASSPUDDLE_ROOM_MOST];

static glasspuddle_record record;
static size_t table_length;

// What has been read, and how far it has been taken.
static uint8_t input[4096];
static size_t input_length;
static size_t input_taken;
static uint64_t bytes_taken;

// Lines that aren't written yet. The longest line, a trigger's on standard error, has 40 bytes.
#define LINE_MOST 64
static char lines[4096];
static size_t lines_length;

// Whether to try again what has just failed: at once after a signal, and where the descriptor
// wasn't ready when it is. A descriptor that breaks meanwhile is ready too: the next try shows it.
static bool again(int descriptor, short events) {
    if (errno == EINTR) {
        return true;
    }
    if (errno != EAGAIN && errno != EWOULDBLOCK) {
        return false;
    }
    struct pollfd wanted = {.fd = descriptor, .events = events};
    return poll(&wanted, 1, -1) >= 0 || errno == EINTR;
}

// Says whether all was written.
static bool write_all(int descriptor, const char *bytes, size_t length) {
    while (length > 0) {
        errno = EIO; // where nothing is written and no other reason given
        ssize_t written = write(descriptor, bytes, length);
        if (written > 0) {
            bytes += written;
            length -= (size_t)written;
        } else if (written == 0 || !again(descriptor, POLLOUT)) {
            return false;
        }
    }
    return true;
}

// Where the message can't be written either, the status still tells.
static _Noreturn void failed(const char *what) {
    char text[128];
    snprintf(text, sizeof text, "glasspuddle: %s failed: %s\n", what, strerror(errno));
    write_all(STDERR_FILENO, text, strlen(text));
    exit(FAILED);
}

static void write_lines(void) {
    if (!write_all(STDOUT_FILENO, lines, lines_length)) {
        failed("writing");
    }
    lines_length = 0;
}

// Prints one line. It is written before more input is waited for.
static void print(const char *format, ...) {
    if (sizeof lines - lines_length < LINE_MOST) {
        write_lines();
    }
    va_list numbers;
    va_start(numbers, format);
    lines_length += (size_t)vsnprintf(lines + lines_length, LINE_MOST, format, numbers);
    va_end(numbers);
}

// A terminal that has hung up is read as one that has ended. Only poll tells them apart.
static bool hung_up(void) {
    struct pollfd standard_input = {.fd = STDIN_FILENO, .events = POLLIN};
    errno = EIO;
    return poll(&standard_input, 1, 0) > 0 && (standard_input.revents & POLLERR) != 0;
}

// Waits for more input. Says whether there is more: the input has ended if not.
static bool read_more(void) {
    write_lines();
    ssize_t got;
    do {
        got = read(STDIN_FILENO, input, sizeof input);
    } while (got < 0 && again(STDIN_FILENO, POLLIN));
    if (got < 0 || (got == 0 && hung_up())) {
        failed("reading");
    }
    input_taken = 0;
    input_length = (size_t)got;
    return got > 0;
}

// Waits for this many bytes; fewer come only at the end of the input.
static size_t take(uint8_t *bytes, size_t length) {
    size_t got = 0;
    while (got < length && (input_taken < input_length || read_more())) {
        bytes[got] = input[input_taken];
        input_taken++;
        got++;
    }
    bytes_taken += got;
    return got;
}

static uint32_t word_at(const uint8_t *bytes) {
    return (uint32_t)bytes[0] | (uint32_t)bytes[1] << 8 | (uint32_t)bytes[2] << 16 |
           (uint32_t)bytes[3] << 24;
}

static void stopped(void) {
    print("s %" PRIu64 "\n", bytes_taken);
}

static void refused(unsigned number, size_t place) {
    print("r %u %zu\n", number, place);
}

// A trigger is true at this position. Here a dock switches something.
static void act(unsigned stream, uint32_t position) {
    char text[LINE_MOST];
    snprintf(text, sizeof text, "dock: trigger %u at position %" PRIu32 "\n", stream, position);
    if (!write_all(STDERR_FILENO, text, strlen(text))) {
        failed("writing");
    }
}

// The records of a turn, in the first `count` bytes of the output.
static void give(size_t count) {
    size_t at = 0;
    while (at < count) {
        unsigned stream = out[at + 1];
        uint32_t position = word_at(out + at + 2);
        if (out[at] == GLASSPUDDLE_KIND_VALUE) {
            uint32_t value = word_at(out + at + 6);
            print("v %u %" PRIu32 " %08" PRIx32 "\n", stream, position, value);
            at += GLASSPUDDLE_VALUE_BYTES;
        } else {
            print("t %u %" PRIu32 "\n", stream, position);
            act(stream, position);
            at += GLASSPUDDLE_TRIGGER_BYTES;
        }
    }
}

// Prints what a call gave. Says whether it was accepted.
static bool answer(glasspuddle_told told) {
    if (told.number == GLASSPUDDLE_ACCEPTED) {
        give(told.count);
    } else {
        refused(told.number, told.place);
    }
    return told.number == GLASSPUDDLE_ACCEPTED;
}

// Kind byte, length and table. Says whether the table is here whole. That an empty one is refused
// is left to opening.
static bool take_table(void) {
    uint8_t head[3];
    size_t got = take(head, 1);
    if (got == 1 && head[0] != KIND_STREAM) {
        refused(GLASSPUDDLE_REFUSED_KIND, 0);
        return false;
    }
    if (got < 1 || take(head + 1, 2) < 2) {
        stopped();
        return false;
    }
    table_length = head[1] + 256u * head[2];
    if (GLASSPUDDLE_TABLE_MOST < table_length) {
        refused(GLASSPUDDLE_REFUSED_TABLE_LENGTH, 0);
        return false;
    }
    if (take(table, table_length) < table_length) {
        stopped();
        return false;
    }
    return true;
}

// Rows until the input ends. "A refused row is reported and skipped."
static void take_rows(void) {
    uint8_t bytes[WORD_BYTES * GLASSPUDDLE_INPUTS_MOST];
    uint32_t row[GLASSPUDDLE_INPUTS_MOST];
    size_t inputs = table[GLASSPUDDLE_INPUTS_AT];
    size_t got = take(bytes, WORD_BYTES * inputs);
    while (got == WORD_BYTES * inputs) {
        for (size_t i = 0; i < inputs; i++) {
            row[i] = word_at(bytes + WORD_BYTES * i);
        }
        answer(glasspuddle_row(&record, table, table_length, store, GLASSPUDDLE_STORE_MOST, row,
                               inputs, out, sizeof out));
        got = take(bytes, WORD_BYTES * inputs);
    }
    if (got > 0) {
        stopped();
    }
}

// The closing turns. No refusal is due here, but the loop waits for none to go away.
static void finish(void) {
    bool going = answer(glasspuddle_close(&record, table, table_length));
    while (going && record.phase == GLASSPUDDLE_DRAINING) {
        going = answer(glasspuddle_drain(&record, table, table_length, store,
                                         GLASSPUDDLE_STORE_MOST, out, sizeof out));
    }
    print("end %" PRIu32 "\n", record.rows);
}

int main(void) {
    enum status status = NO_RUN;
    // A reader that has gone is a failed write like any other, and no signal that ends the dock.
    signal(SIGPIPE, SIG_IGN);
    if (take_table() &&
        answer(glasspuddle_open(&record, table, table_length, store, GLASSPUDDLE_STORE_MOST))) {
        take_rows();
        finish();
        status = ENDED;
    }
    write_lines();
    return status;
}
