// A script of calls (tests/SESSIONS.md) through the archive: sessions < tests/sessions.script. It
// prints what tests/sessions.py, written from document 01 alone, has in tests/sessions.expected.

#include "glasspuddle.h"
#include <inttypes.h>
#include <stdio.h>
#include <stdlib.h>
#include <string.h>

// What a script may ask for.
#define TABLE_BYTES 4200
#define STORE_WORDS 5000
#define OUT_BYTES 1024
#define ROW_WORDS 40
#define LINE_BYTES 9000

static uint8_t table[TABLE_BYTES];
static size_t table_length;
static uint32_t store[STORE_WORDS];
static size_t store_length;
static uint8_t out[OUT_BYTES];
static size_t out_length;
static glasspuddle_record record;

static uint32_t sum_of_halves(const uint16_t *numbers) {
    uint32_t sum = 0;
    for (uint32_t i = 0; i < GLASSPUDDLE_STREAMS_MOST; i++) {
        sum += (i + 1) * numbers[i];
    }
    return sum;
}

static uint32_t sum_of_store(void) {
    uint32_t sum = 0;
    for (uint32_t i = 0; i < store_length; i++) {
        sum += (i + 1) * store[i];
    }
    return sum;
}

static uint32_t sum_of_out(void) {
    uint32_t sum = 0;
    for (uint32_t i = 0; i < out_length; i++) {
        sum += (i + 1) * out[i];
    }
    return sum;
}

static void print_answer(const char *name, glasspuddle_told told) {
    printf("%s %u %zu %zu rows %" PRIu32 " phase %u done %u", name, told.number, told.place,
           told.count, record.rows, record.phase, record.done);
    printf(" look %08" PRIx32 " kept %08" PRIx32, sum_of_halves(record.look),
           sum_of_halves(record.kept));
    printf(" store %08" PRIx32 " out ", sum_of_store());
    for (size_t i = 0; i < told.count; i++) {
        printf("%02x", out[i]);
    }
    printf("%s rest %08" PRIx32 "\n", told.count == 0 ? "-" : "", sum_of_out());
}

// The next word of the line, empty where there is none.
static const char *next(void) {
    const char *word = strtok(NULL, " \n");
    return word == NULL ? "" : word;
}

static unsigned long number(int base) {
    return strtoul(next(), NULL, base);
}

static void take_table(void) {
    const char *hex = next();
    unsigned byte;
    table_length = 0;
    while (sscanf(hex + 2 * table_length, "%2x", &byte) == 1) {
        table[table_length] = (uint8_t)byte;
        table_length++;
    }
}

static void take_store(void) {
    store_length = number(10);
    for (uint32_t i = 0; i < store_length; i++) {
        store[i] = 0xA5A50000 + i;
    }
}

static void take_out(void) {
    out_length = number(10);
}

static void call_open(void) {
    print_answer("open", glasspuddle_open(&record, table, table_length, store, store_length));
}

static void call_row(void) {
    uint32_t row[ROW_WORDS];
    size_t words = 0;
    const char *word = next();
    while (word[0] != '\0') {
        row[words] = (uint32_t)strtoul(word, NULL, 16);
        words++;
        word = next();
    }
    print_answer("row", glasspuddle_row(&record, table, table_length, store, store_length, row,
                                        words, out, out_length));
}

static void call_close(void) {
    print_answer("close", glasspuddle_close(&record, table, table_length));
}

static void call_drain(void) {
    unsigned long times = number(10);
    for (unsigned long i = 0; i < times; i++) {
        memset(out, 0xEE, out_length);
        print_answer("drain", glasspuddle_drain(&record, table, table_length, store, store_length,
                                                out, out_length));
    }
}

static void set_field(void) {
    const char *field = next();
    unsigned long first = number(10);
    if (strcmp(field, "rows") == 0) {
        record.rows = (uint32_t)first;
    } else if (strcmp(field, "phase") == 0) {
        record.phase = (uint8_t)first;
    } else if (strcmp(field, "done") == 0) {
        record.done = (uint16_t)first;
    } else if (strcmp(field, "look") == 0) {
        record.look[first] = (uint16_t)number(10);
    } else {
        record.kept[first] = (uint16_t)number(10);
    }
}

static const struct {
    const char *name;
    void (*act)(void);
} commands[] = {
    {"table", take_table}, {"store", take_store}, {"out", take_out},     {"open", call_open},
    {"row", call_row},     {"close", call_close}, {"drain", call_drain}, {"set", set_field},
};

int main(void) {
    static char line[LINE_BYTES];
    while (fgets(line, sizeof line, stdin) != NULL) {
        const char *name = strtok(line, " \n");
        for (size_t i = 0; name != NULL && i < sizeof commands / sizeof commands[0]; i++) {
            if (strcmp(name, commands[i].name) == 0) {
                memset(out, 0xEE, out_length);
                commands[i].act();
            }
        }
    }
    return 0;
}
