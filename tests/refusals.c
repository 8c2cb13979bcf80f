// The header's constants against the archive: each refusal is given under its name, each limit is
// reached and not passed. Ends with 0 if so.

#include "glasspuddle.h"
#include <stdbool.h>
#include <stdio.h>
#include <string.h>

// The table at hand, with room for one byte more than a table may have.
static uint8_t table[GLASSPUDDLE_TABLE_MOST + 1];
static size_t length;

// What the calls are lent.
static glasspuddle_record record;
static uint32_t store[GLASSPUDDLE_STORE_MOST];
static uint8_t out[GLASSPUDDLE_ROOM_MOST];

static unsigned failures;

static void expect(bool holds, const char *what) {
    if (!holds) {
        printf("refusals: not so: %s\n", what);
        failures++;
    }
}

static void put(const uint8_t *bytes, size_t count) {
    memcpy(table + length, bytes, count);
    length += count;
}

#define PUT(...) put((const uint8_t[]){__VA_ARGS__}, sizeof((const uint8_t[]){__VA_ARGS__}))

// The heads of a table: edition, counts, and all inputs of one type, all outputs of one type and
// role.
static void begin(uint8_t inputs, uint8_t type, uint8_t outputs, uint8_t given, uint8_t role) {
    length = 0;
    PUT(0x01, 1, inputs, outputs);
    for (uint8_t i = 0; i < inputs; i++) {
        PUT(0x02, type);
    }
    for (uint8_t i = 0; i < outputs; i++) {
        PUT(0x03, given, role);
    }
}

static glasspuddle_told row_of(size_t store_words, const uint32_t *row, size_t words, size_t room) {
    return glasspuddle_row(&record, table, length, store, store_words, row, words, out, room);
}

static bool tells(glasspuddle_told told, uint8_t number, size_t place) {
    return told.number == number && told.place == place && told.count == 0;
}

// "Every call tests the table first": all five give this refusal.
static void refuses(uint8_t number, size_t place, const char *what) {
    const uint32_t word = 0;
    glasspuddle_checked checked = glasspuddle_check(table, length);
    expect(checked.number == number && checked.place == place, what);
    expect(tells(glasspuddle_open(&record, table, length, store, 0), number, place) &&
               tells(row_of(0, &word, 0, 0), number, place) &&
               tells(glasspuddle_close(&record, table, length), number, place) &&
               tells(glasspuddle_drain(&record, table, length, store, 0, out, 0), number, place),
           what);
}

static void refused_by_the_scan(void) {
    memset(table, 0, sizeof table);
    length = GLASSPUDDLE_TABLE_LEAST - 1;
    refuses(GLASSPUDDLE_REFUSED_TABLE_LENGTH, 0, "1: the empty table");
    length = GLASSPUDDLE_TABLE_MOST + 1;
    refuses(GLASSPUDDLE_REFUSED_TABLE_LENGTH, 0, "1: a table of 4,097 bytes");
    length = GLASSPUDDLE_TABLE_MOST;
    refuses(GLASSPUDDLE_REFUSED_KIND, 0, "3: a table of 4,096 bytes that begins with 00");
    begin(1, 1, 2, 1, 0);
    length = 5;
    refuses(GLASSPUDDLE_REFUSED_MISSING, 4, "2: the input's type is missing");
    begin(1, 1, 1, 1, 1);
    refuses(GLASSPUDDLE_REFUSED_FIELD, 6, "4: a trigger that is a word");
    begin(1, 1, 1, 1, 0);
    PUT(0x04, 1, 0x10, 1);
    refuses(GLASSPUDDLE_REFUSED_TYPE, 11, "5: a flag where a word is wanted");
    begin(1, 1, 1, 1, 0);
    PUT(0x04, 1, 0x13, 0, 0x00);
    refuses(GLASSPUDDLE_REFUSED_BYTES_AFTER, 13, "9: a byte after the last expression");
}

static void levels(size_t deep) {
    begin(1, 0, 1, 0, 0);
    PUT(0x04, 1);
    for (size_t level = 1; level < deep; level++) {
        PUT(0x20);
    }
    PUT(0x10, 1);
}

// The sum of these streams, the last of them read at k, the others at the least offset.
static void sum(uint8_t first, uint8_t count, int k) {
    if (count == 1) {
        bool last = first == GLASSPUDDLE_STREAMS_MOST - 1;
        PUT(0x14, first, (uint8_t)(last ? k : GLASSPUDDLE_OFFSET_LEAST), 0, 0, 0, 0);
    } else {
        PUT(0x24);
        sum(first, count / 2, k);
        sum(first + count / 2, count - count / 2, k);
    }
}

// "Thirty-one inputs read at -128 by one output that also reads itself" at k.
static void deep_store(int k) {
    begin(GLASSPUDDLE_INPUTS_MOST, 1, 1, 1, 0);
    PUT(0x04, GLASSPUDDLE_INPUTS_MOST);
    sum(0, GLASSPUDDLE_STREAMS_MOST, k);
}

// Triggers, each the stream before it at the largest offset: the longest walk and the largest room.
static void chain(uint8_t outputs) {
    begin(1, 0, outputs, 0, 1);
    for (uint8_t output = 1; output <= outputs; output++) {
        PUT(0x04, output, 0x14, output - 1, GLASSPUDDLE_OFFSET_MOST, 0, 0, 0, 0);
    }
}

static void limits_are_reached(void) {
    levels(GLASSPUDDLE_LEVELS_MOST);
    expect(glasspuddle_check(table, length).number == GLASSPUDDLE_ACCEPTED, "16 levels");
    levels(GLASSPUDDLE_LEVELS_MOST + 1);
    refuses(GLASSPUDDLE_REFUSED_LEVEL, 27, "6: a node at level 17");
    deep_store(-96);
    glasspuddle_checked full = glasspuddle_check(table, length);
    expect(full.number == 0 && full.words == GLASSPUDDLE_STORE_MOST, "31 inputs, 4,096 words");
    deep_store(-97);
    refuses(GLASSPUDDLE_REFUSED_STORE_WORDS, 0, "8: 4,097 store words");
    chain(GLASSPUDDLE_OUTPUTS_MOST);
    glasspuddle_checked most = glasspuddle_check(table, length);
    expect(most.number == 0 && most.room == GLASSPUDDLE_ROOM_MOST, "31 triggers: room 496");
    expect(most.closing == 3937 && 3937 == GLASSPUDDLE_CLOSING_MOST,
           "the longest walk: 3,937 closing turns");
    chain(GLASSPUDDLE_OUTPUTS_MOST + 1);
    refuses(GLASSPUDDLE_REFUSED_FIELD, 0, "4: 33 streams");
    begin(1, 0, 1, 0, 0);
    PUT(0x04, 1, 0x13, 1);
    refuses(GLASSPUDDLE_REFUSED_LOOP, 1, "7: a stream that reads itself now");
}

// Two flags in, and a trigger that is the second of them in the next row: 3 words and a room of 16.
// Every fault of a row at once, then one less each time: "a row with 10 to 16 in order".
static void refused_by_a_row(void) {
    const uint32_t row[3] = {1, 2, 0};
    const uint32_t good[2] = {1, 1};
    begin(2, 0, 1, 0, 1);
    PUT(0x04, 2, 0x14, 1, 1, 0, 0, 0, 0);
    expect(tells(glasspuddle_open(&record, table, length, store, 3), 0, 0), "opening");
    record.rows = GLASSPUDDLE_ROWS_MOST;
    record.phase = GLASSPUDDLE_OVER;
    expect(tells(row_of(2, row, 3, 15), GLASSPUDDLE_REFUSED_RECORD, 0), "10: turns are left");
    record.done = 1;
    expect(tells(row_of(2, row, 3, 15), GLASSPUDDLE_REFUSED_SHORT_STORE, 0), "11: 2 of 3 words");
    expect(tells(row_of(3, row, 3, 15), GLASSPUDDLE_REFUSED_PHASE, 0), "12: a row after the end");
    record.done = 0;
    record.phase = GLASSPUDDLE_READING;
    expect(tells(row_of(3, row, 3, 15), GLASSPUDDLE_REFUSED_ROW_LIMIT, 0), "13: the row limit");
    record.rows = GLASSPUDDLE_ROWS_MOST - 1;
    expect(tells(row_of(3, row, 3, 15), GLASSPUDDLE_REFUSED_ROW_LENGTH, 0), "14: three words");
    expect(tells(row_of(3, row, 2, 15), GLASSPUDDLE_REFUSED_FLAG, 1), "15: the second flag is 2");
    expect(tells(row_of(3, good, 2, 15), GLASSPUDDLE_REFUSED_SHORT_OUTPUT, 0),
           "16: 15 of 16 bytes");
    glasspuddle_told last = row_of(3, good, 2, 16);
    expect(last.number == 0 && last.place == 0 && last.count == 16,
           "the last row that there can be");
    expect(record.rows == GLASSPUDDLE_ROWS_MOST, "the record at the row limit");
    expect(out[0] == GLASSPUDDLE_KIND_VALUE, "record 50");
    expect(out[GLASSPUDDLE_VALUE_BYTES] == GLASSPUDDLE_KIND_TRIGGER, "record 51");
}

// The same for the calls that end a run.
static void refused_at_the_end(void) {
    expect(tells(glasspuddle_drain(&record, table, length, store, 3, out, 16),
                 GLASSPUDDLE_REFUSED_PHASE, 0),
           "12: draining before closing");
    expect(tells(glasspuddle_close(&record, table, length), 0, 0), "closing");
    expect(tells(glasspuddle_close(&record, table, length), GLASSPUDDLE_REFUSED_PHASE, 0),
           "12: closing twice");
    expect(tells(glasspuddle_drain(&record, table, length, store, 2, out, 15),
                 GLASSPUDDLE_REFUSED_SHORT_STORE, 0),
           "11: draining with 2 of 3 words");
    expect(tells(glasspuddle_drain(&record, table, length, store, 3, out, 15),
                 GLASSPUDDLE_REFUSED_SHORT_OUTPUT, 0),
           "16: draining with 15 of 16 bytes");
    glasspuddle_told turn = glasspuddle_drain(&record, table, length, store, 3, out, 16);
    expect(turn.number == 0 && turn.count == 10 && record.phase == GLASSPUDDLE_OVER,
           "the closing turn");
}

int main(void) {
    refused_by_the_scan();
    limits_are_reached();
    refused_by_a_row();
    refused_at_the_end();
    if (failures == 0) {
        printf("refusals: each number and each limit as the header has it\n");
    }
    return failures != 0;
}
