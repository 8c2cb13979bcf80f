// The monitor's five calls for C and C++ (document 01, "A run"). The functions are proved; their
// archive is target/staticlib/libdock.a, made by `sh tools/build`, for x86-64. Words in
// quotation marks are document 01's.
//
// WHAT EVERY CALL PROMISES, for any values of its arguments
// - It ends, allocates nothing, and writes only what is lent to it to be changed.
// - Its answer depends on its arguments alone. It keeps nothing between calls, so calls with
//   different records may run at the same time.
// - "Every call tests the table first", refusals 1 to 9: "The scan goes front to back and stops at
//   the first fault; for one record the order is missing kind byte (2), 3, missing body (2), 6, 4,
//   5. After it come 9, 7, 8." The call's own tests follow, in the order that stands with it.
// - A refusal has one number and one place, and count 0. Record, store and output are as they
//   were; only opening puts another record there, an all-zero one.
// - "An accepted call answers number 0 and place 0."
//
// WHAT THE CALLER KEEPS TO, since no call can test it
// - A pointer is valid for its length (a number of elements) and aligned for its type. Where the
//   length is 0 any aligned address but null will do.
// - The record, the store and the output overlap nothing else that is passed, and nothing else
//   writes any argument during the call. Table and row are only read.
// - The floating-point settings are those that a C program starts with: round to nearest even, no
//   flushing of subnormals to zero (linking with -ffast-math switches it on), no traps.
//
// A RUN goes on with the record and the store as the call before left them, and with the table
// bytes that it was opened with. A call with others has its answer too, as document 01 says, but
// its values need not be those of the run. The record's fields are there to be read.

#ifndef GLASSPUDDLE_H
#define GLASSPUDDLE_H

#include <stddef.h>
#include <stdint.h>

#ifdef __cplusplus
extern "C" {
#endif

// The version, also as one number that can be compared: 10000 times major, 100 times minor, patch.
// Each change of a layout, of a size or of a meaning raises it, and CHANGELOG.md says what changed:
// the patch where every caller can stay as it is, the minor where something is new beside what was,
// the major where a caller has to change or to be compiled anew.
#define GLASSPUDDLE_VERSION_MAJOR 1
#define GLASSPUDDLE_VERSION_MINOR 1
#define GLASSPUDDLE_VERSION_PATCH 0
#define GLASSPUDDLE_VERSION                                                                        \
    (GLASSPUDDLE_VERSION_MAJOR * 10000 + GLASSPUDDLE_VERSION_MINOR * 100 +                         \
     GLASSPUDDLE_VERSION_PATCH)

// Document 01's limits ("Numbers").
#define GLASSPUDDLE_TABLE_LEAST 1                  // "table 1 to 4,096 bytes"
#define GLASSPUDDLE_TABLE_MOST 4096                // the same
#define GLASSPUDDLE_STREAMS_MOST 32                // "S at most 32"
#define GLASSPUDDLE_INPUTS_MOST 31                 // S less 1, since "I and O at least 1"
#define GLASSPUDDLE_OUTPUTS_MOST 31                // the same
#define GLASSPUDDLE_LEVELS_MOST 16                 // "nodes nest at most 16 levels deep"
#define GLASSPUDDLE_OFFSET_LEAST (-128)            // "k from -128 to 127 and not 0"
#define GLASSPUDDLE_OFFSET_MOST 127                // the same
#define GLASSPUDDLE_STORE_MOST 4096                // "store at most 4,096 words"
#define GLASSPUDDLE_ROWS_MOST UINT32_C(4294967295) // "at most 4,294,967,295 rows in a run"

// The output's records: a kind byte, the stream in 1 byte, the position in 4; a value's record has
// the value word in 4 more. Numbers are little-endian. "a trigger stream's true value is followed
// by record 51".
#define GLASSPUDDLE_KIND_VALUE 0x50
#define GLASSPUDDLE_KIND_TRIGGER 0x51
#define GLASSPUDDLE_VALUE_BYTES 10
#define GLASSPUDDLE_TRIGGER_BYTES 6

// Two more limits, which follow. "Room: 10 bytes for each output and 6 for each trigger" is
// largest with 31 triggers: 496. "Closing turns: the largest look-ahead": a longest walk meets no
// stream twice, since every loop's total is below 0, so it has at most 31 edges of 127: 3,937.
#define GLASSPUDDLE_ROOM_MOST                                                                      \
    (GLASSPUDDLE_OUTPUTS_MOST * (GLASSPUDDLE_VALUE_BYTES + GLASSPUDDLE_TRIGGER_BYTES))
#define GLASSPUDDLE_CLOSING_MOST ((GLASSPUDDLE_STREAMS_MOST - 1) * GLASSPUDDLE_OFFSET_MOST)

// The offset of the byte I, the words of a row, in an accepted table.
#define GLASSPUDDLE_INPUTS_AT 2

// The phases of a record. No other byte is a phase: with one it is "not a record of this table".
enum glasspuddle_phase {
    GLASSPUDDLE_READING = 0,
    GLASSPUDDLE_DRAINING = 1,
    GLASSPUDDLE_OVER = 2,
};

// "Refusal numbers", and 0 for an accepted call.
enum glasspuddle_number {
    GLASSPUDDLE_ACCEPTED = 0,
    // "table length out of its limits"; place 0
    GLASSPUDDLE_REFUSED_TABLE_LENGTH = 1,
    // "kind byte or body missing"; place "offset of the record"
    GLASSPUDDLE_REFUSED_MISSING = 2,
    // "kind not allowed here"; place the same
    GLASSPUDDLE_REFUSED_KIND = 3,
    // "a field out of its rule: edition, I, O, S, type, role, a trigger not of type flag, equation
    // out of stream order, stream not below S, k = 0, flag constant or flag default above 1";
    // place the same
    GLASSPUDDLE_REFUSED_FIELD = 4,
    // "node not of the wanted type"; place the same
    GLASSPUDDLE_REFUSED_TYPE = 5,
    // "node at level 17"; place the same
    GLASSPUDDLE_REFUSED_LEVEL = 6,
    // "a loop totals 0 or more"; place "lowest stream with a walk of 1 to S edges back to itself
    // totalling 0 or more"
    GLASSPUDDLE_REFUSED_LOOP = 7,
    // "store words over 4,096"; place 0
    GLASSPUDDLE_REFUSED_STORE_WORDS = 8,
    // "bytes after the last expression"; place "the first of them"
    GLASSPUDDLE_REFUSED_BYTES_AFTER = 9,
    // "not a record of this table"; place 0
    GLASSPUDDLE_REFUSED_RECORD = 10,
    // "lent store shorter than announced"; place 0
    GLASSPUDDLE_REFUSED_SHORT_STORE = 11,
    // "call not of this phase"; place 0
    GLASSPUDDLE_REFUSED_PHASE = 12,
    // "row limit reached"; place 0
    GLASSPUDDLE_REFUSED_ROW_LIMIT = 13,
    // "row hasn't I words"; place 0
    GLASSPUDDLE_REFUSED_ROW_LENGTH = 14,
    // "input flag word above 1"; place "lowest such stream"
    GLASSPUDDLE_REFUSED_FLAG = 15,
    // "lent output shorter than the room"; place 0
    GLASSPUDDLE_REFUSED_SHORT_OUTPUT = 16,
};

// The record of a run: "each stream's look-ahead and kept number (0 past S), the rows taken, the
// phase (reading, draining, over) and closing turns done". A byte of padding follows; it says
// nothing, and no call writes it, opening included. So a record that was cleared once (static, or
// memset) and copied by memcpy can be compared with memcmp; else compare the fields.
typedef struct glasspuddle_record {
    uint16_t look[GLASSPUDDLE_STREAMS_MOST];
    uint16_t kept[GLASSPUDDLE_STREAMS_MOST];
    uint32_t rows;
    uint16_t done;
    uint8_t phase;
} glasspuddle_record;

// What a call tells: the number and the place of a refusal, or 0 and 0; the bytes written.
typedef struct glasspuddle_told {
    uint8_t number;
    size_t place;
    size_t count;
} glasspuddle_told;

// What the check announces: each stream's look-ahead and kept number (0 past S), the store's words,
// the output's room in bytes, the closing turns.
typedef struct glasspuddle_checked {
    uint8_t number;
    size_t place;
    uint16_t look[GLASSPUDDLE_STREAMS_MOST];
    uint16_t kept[GLASSPUDDLE_STREAMS_MOST];
    size_t words;
    size_t room;
    uint16_t closing;
} glasspuddle_checked;

// Checks a table. Tests: the table.
//
// Accepted: number 0 and place 0, and what the table announces.
// Refused: number and place; "the check announces zeros".
glasspuddle_checked glasspuddle_check(const uint8_t *table, size_t table_length);

// Opens a run; what the record held doesn't matter. Tests: the table; 11.
//
// Accepted: the record has the announced numbers, no rows, phase reading. "Opening puts 0 into
// exactly the announced store words"; the words past them stay, here and in every call.
// Refused: the record is all zero, phase reading; the store is as it was.
glasspuddle_told glasspuddle_open(glasspuddle_record *record, const uint8_t *table,
                                  size_t table_length, uint32_t *store, size_t store_length);

// Takes a row of I words: each a flag (0 or 1), a word, or the 32 bits of a level. Tests: the
// table; 10, 11, 12, 13, 14, 15, 16.
//
// Accepted: turn j, for the j-th accepted row, counted from 0. In stream order it gives each
// output's value at j less its look-ahead, where that is 0 or more. Count, at most the room, is the
// number of bytes written; the rest of out stays. The store has the turn's values; rows is 1 more.
// Refused: record, store and out are as they were. "A refused row takes no position."
glasspuddle_told glasspuddle_row(glasspuddle_record *record, const uint8_t *table,
                                 size_t table_length, uint32_t *store, size_t store_length,
                                 const uint32_t *row, size_t row_length, uint8_t *out,
                                 size_t out_length);

// Closes a run: the N rows taken are all there are. Tests: the table; 10, 12.
//
// Accepted: "with N = 0 or no closing turns the run is over", else the phase is draining.
// Refused: the record is as it was.
glasspuddle_told glasspuddle_close(glasspuddle_record *record, const uint8_t *table,
                                   size_t table_length);

// Takes a closing turn, one for each call while the phase is draining. Tests: the table; 10, 11,
// 12, 16.
//
// Accepted: turn N + done, in the same form as a row's: each output's value at that turn less its
// look-ahead, where that is 0 to N-1. Done is 1 more; after the last closing turn the run is over.
// Refused: record, store and out are as they were.
glasspuddle_told glasspuddle_drain(glasspuddle_record *record, const uint8_t *table,
                                   size_t table_length, uint32_t *store, size_t store_length,
                                   uint8_t *out, size_t out_length);

#ifdef __cplusplus
}
#endif

#endif
