// The header's structs against the archive: sizes and offsets when this is compiled, and when it is
// run whether the library writes and reads each field where the header has it. Ends with 0 if so.
// It is C and C++ alike.

#include "glasspuddle.h"
#include <assert.h>
#include <stdalign.h>
#include <stdbool.h>
#include <stdio.h>
#include <string.h>

// The preprocessor can compare it. tests/numbers.sh compares it with the changelog's.
#if GLASSPUDDLE_VERSION < 10000
#error "no version"
#endif

#define AT(type, field, offset, size)                                                              \
    static_assert(offsetof(type, field) == (offset) && sizeof((type *)0)->field == (size),         \
                  #type "." #field " lies elsewhere")

AT(glasspuddle_record, look, 0, 64);
AT(glasspuddle_record, kept, 64, 64);
AT(glasspuddle_record, rows, 128, 4);
AT(glasspuddle_record, done, 132, 2);
AT(glasspuddle_record, phase, 134, 1);
static_assert(sizeof(glasspuddle_record) == 136, "the record's size");
static_assert(alignof(glasspuddle_record) == 4, "the record's alignment");

AT(glasspuddle_told, number, 0, 1);
AT(glasspuddle_told, place, 8, 8);
AT(glasspuddle_told, count, 16, 8);
static_assert(sizeof(glasspuddle_told) == 24, "the size of what is told");

AT(glasspuddle_checked, number, 0, 1);
AT(glasspuddle_checked, place, 8, 8);
AT(glasspuddle_checked, look, 16, 64);
AT(glasspuddle_checked, kept, 80, 64);
AT(glasspuddle_checked, words, 144, 8);
AT(glasspuddle_checked, room, 152, 8);
AT(glasspuddle_checked, closing, 160, 2);
static_assert(sizeof(glasspuddle_checked) == 168, "the size of what is announced");

// The record's bytes up to its padding, and what that byte is put to before each call.
#define RECORD_BYTES 135
#define PADDING 0xAA

// More words and bytes than table A asks for, to see that the rest stays.
#define WORDS 6
#define BYTES 32

// Document 01's table A and its P1.
static const uint8_t table_a[36] = {
    0x01, 0x01, 0x01, 0x02, 0x02, 0x01, 0x03, 0x01, 0x00, 0x03, 0x00, 0x01,
    0x04, 0x01, 0x25, 0x13, 0x00, 0x14, 0x00, 0xFF, 0x00, 0x00, 0x00, 0x00,
    0x04, 0x02, 0x26, 0x13, 0x00, 0x14, 0x00, 0x01, 0x07, 0x00, 0x00, 0x00,
};
static const uint16_t look_a[GLASSPUDDLE_STREAMS_MOST] = {0, 0, 1};
static const uint16_t kept_a[GLASSPUDDLE_STREAMS_MOST] = {2, 1, 1};

// What the calls are lent.
static glasspuddle_record record;
static uint32_t store[WORDS];
static uint8_t out[BYTES];

static unsigned failures;

static void expect(bool holds, const char *what) {
    if (!holds) {
        printf("layout: not so: %s\n", what);
        failures++;
    }
}

static bool tells(glasspuddle_told told, uint8_t number, size_t place, size_t count) {
    return told.number == number && told.place == place && told.count == count;
}

static bool holds(uint32_t rows, uint16_t done, uint8_t phase) {
    return memcmp(record.look, look_a, sizeof look_a) == 0 &&
           memcmp(record.kept, kept_a, sizeof kept_a) == 0 && record.rows == rows &&
           record.done == done && record.phase == phase;
}

// Every call goes between these two: none writes the padding, whatever it answers.
static void put_padding(void) {
    ((uint8_t *)&record)[RECORD_BYTES] = PADDING;
}

static glasspuddle_told with_padding(glasspuddle_told told) {
    expect(((const uint8_t *)&record)[RECORD_BYTES] == PADDING, "a call leaves the padding");
    return told;
}

static glasspuddle_told open_with(size_t words) {
    put_padding();
    return with_padding(glasspuddle_open(&record, table_a, sizeof table_a, store, words));
}

static glasspuddle_told open_a(void) {
    return open_with(WORDS);
}

static glasspuddle_told row_a(uint32_t word) {
    put_padding();
    return with_padding(
        glasspuddle_row(&record, table_a, sizeof table_a, store, WORDS, &word, 1, out, BYTES));
}

static glasspuddle_told close_a(void) {
    put_padding();
    return with_padding(glasspuddle_close(&record, table_a, sizeof table_a));
}

static glasspuddle_told drain_a(void) {
    put_padding();
    return with_padding(
        glasspuddle_drain(&record, table_a, sizeof table_a, store, WORDS, out, BYTES));
}

static void check_announces(void) {
    glasspuddle_checked a = glasspuddle_check(table_a, sizeof table_a);
    expect(a.number == 0 && a.place == 0, "table A is accepted");
    expect(memcmp(a.look, look_a, sizeof look_a) == 0, "P1: look-ahead 0, 0, 1, then zeros");
    expect(memcmp(a.kept, kept_a, sizeof kept_a) == 0, "P1: kept 2, 1, 1, then zeros");
    expect(a.words == 4 && a.room == 26 && a.closing == 1, "P1: 4 words, room 26, 1 closing turn");

    uint8_t longer[sizeof table_a + 1] = {0};
    memcpy(longer, table_a, sizeof table_a);
    glasspuddle_checked refused = glasspuddle_check(longer, sizeof longer);
    const uint16_t zeros[GLASSPUDDLE_STREAMS_MOST] = {0};
    expect(refused.number == 9 && refused.place == 36, "a byte too many is refused with 9 at 36");
    expect(memcmp(refused.look, zeros, sizeof zeros) == 0 &&
               memcmp(refused.kept, zeros, sizeof zeros) == 0 && refused.words == 0 &&
               refused.room == 0 && refused.closing == 0,
           "a refused check announces zeros");
}

// P2 and P3, with the record's fields after each call. Rows, done and phase end as 3, 1 and 2.
static void a_run_fills_the_record(void) {
    static const uint8_t third[26] = {0x50, 1, 2, 0, 0, 0, 0xFF, 0xFF, 0xFF, 0xFF, 0x50, 2, 1,
                                      0,    0, 0, 1, 0, 0, 0,    0x51, 2,    1,    0,    0, 0};
    memset(&record, 0xA5, sizeof record);
    memset(store, 0xA5, sizeof store);
    memset(out, 0xEE, sizeof out);
    expect(tells(open_a(), 0, 0, 0) && holds(0, 0, GLASSPUDDLE_READING), "opening");
    expect(store[0] == 0 && store[3] == 0 && store[4] == 0xA5A5A5A5, "opening clears 4 words");
    expect(tells(row_a(4294967290), 0, 0, 10) && out[10] == 0xEE, "the first row gives 10 bytes");
    expect(tells(row_a(4), 0, 0, 20) && out[20] == 0xEE, "the second row gives 20 bytes");
    expect(tells(row_a(3), 0, 0, 26) && out[26] == 0xEE, "the third row gives 26 bytes");
    expect(memcmp(out, third, sizeof third) == 0, "P2 and P3: the third row's records");
    expect(holds(3, 0, GLASSPUDDLE_READING), "the record after three rows");
    expect(tells(close_a(), 0, 0, 0) && holds(3, 0, GLASSPUDDLE_DRAINING), "closing");
    expect(tells(drain_a(), 0, 0, 10) && holds(3, 1, GLASSPUDDLE_OVER), "the closing turn");
    expect(store[4] == 0xA5A5A5A5, "the store past the announced words stays");
}

// Each call answers with this refusal and leaves record, store and output byte for byte.
static void each_call_refuses(uint8_t row, uint8_t close, uint8_t drain, const char *what) {
    uint8_t before[RECORD_BYTES];
    memcpy(before, &record, RECORD_BYTES);
    memset(store, 0x5A, sizeof store);
    memset(out, 0xEE, sizeof out);
    expect(tells(row_a(1), row, 0, 0) && tells(close_a(), close, 0, 0) &&
               tells(drain_a(), drain, 0, 0),
           what);
    bool same = memcmp(before, &record, RECORD_BYTES) == 0;
    for (size_t i = 0; i < WORDS; i++) {
        same = same && store[i] == 0x5A5A5A5A;
    }
    for (size_t i = 0; i < BYTES; i++) {
        same = same && out[i] == 0xEE;
    }
    expect(same, "a refusal leaves record, store and output");
}

// One field changed at a time: the library must read it there to give these refusals.
static void each_field_is_read(void) {
    for (size_t stream = 0; stream < GLASSPUDDLE_STREAMS_MOST; stream++) {
        open_a();
        record.look[stream] += 1;
        each_call_refuses(10, 10, 10, "a foreign look-ahead is refused with 10");
        open_a();
        record.kept[stream] += 0x100;
        each_call_refuses(10, 10, 10, "a foreign kept number is refused with 10");
    }
    open_a();
    record.done = 0x100;
    each_call_refuses(10, 10, 10, "turns done while reading are refused with 10");
    for (unsigned phase = GLASSPUDDLE_OVER + 1; phase < 256; phase++) {
        open_a();
        record.phase = (uint8_t)phase;
        each_call_refuses(10, 10, 10, "a byte that is no phase is refused with 10");
    }
    open_a();
    record.phase = GLASSPUDDLE_OVER;
    each_call_refuses(12, 12, 12, "calls after the end are refused with 12");
    open_a();
    record.rows = GLASSPUDDLE_ROWS_MOST;
    expect(tells(row_a(1), 13, 0, 0) && record.rows == GLASSPUDDLE_ROWS_MOST, "the row limit, 13");
}

// A record of bytes that all differ from their neighbours, in each phase.
static void any_record_is_handed_back(void) {
    for (unsigned phase = 0; phase < 256; phase++) {
        uint8_t bytes[sizeof record];
        for (size_t i = 0; i < sizeof bytes; i++) {
            bytes[i] = (uint8_t)(i + 1);
        }
        memcpy(&record, bytes, sizeof record);
        record.phase = (uint8_t)phase;
        each_call_refuses(10, 10, 10, "a record of other numbers is refused with 10");
    }
    expect(tells(open_with(3), 11, 0, 0), "a store of 3 words is refused with 11");
    const uint8_t zeros[RECORD_BYTES] = {0};
    expect(memcmp(&record, zeros, RECORD_BYTES) == 0, "a refused opening gives an all-zero record");
}

int main(void) {
    check_announces();
    a_run_fills_the_record();
    each_field_is_read();
    any_record_is_handed_back();
    if (failures == 0) {
        printf("layout: header %d.%d.%d and archive agree\n", GLASSPUDDLE_VERSION_MAJOR,
               GLASSPUDDLE_VERSION_MINOR, GLASSPUDDLE_VERSION_PATCH);
    }
    return failures != 0;
}
