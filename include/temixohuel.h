/*
 * The blending controller for firmware in C or C++: link target/staticlib/libfirmware.a (`ci/build.sh firmware`), and
 * for temixohuel_trial also target/staticlib/libtrial.a (`ci/build.sh trial`).
 *
 * What a caller owes:
 * - A controller is one that power-on and these calls alone made: the `controller` of an answer of temixohuel_power_on,
 *   temixohuel_byte or temixohuel_tick. No byte of it is read, written or compared.
 * - One call at a time: each gets the controller that the last byte, tick or power-on answered.
 * - buf or bytes has length bytes, and they overlap no controller and no answer.
 * Nothing else is asked: every switch, byte, word, length, place, entry and content of a buffer is dealt with.
 *
 * A journal is the front part of memory of the caller's, who keeps its length: each append is given the place that the
 * one before it answered, and a read the journal's length, which is the last of these places.
 */
#ifndef TEMIXOHUEL_H
#define TEMIXOHUEL_H

#include <stdbool.h>
#include <stddef.h>
#include <stdint.h>

#ifdef __cplusplus
extern "C" {
#endif

#define TEMIXOHUEL_AXES 5
/* The least length of a buffer lent to a byte or a tick, whether a reply comes or not. */
#define TEMIXOHUEL_REPLY 120
/* The greatest length of an entry in a journal. */
#define TEMIXOHUEL_ENTRY 23

/* Why something was turned away. */
enum {
    TEMIXOHUEL_TAKEN = 0,           /* nothing turned away */
    TEMIXOHUEL_SWITCH = 1,          /* power-on: switch over 15, or 12; the controller has switch 0 */
    TEMIXOHUEL_BUFFER = 2,          /* byte or tick: buffer under 120 bytes; not taken */
    TEMIXOHUEL_WORD = 3,            /* tick or trial: input word over FFFFFF; no tick */
    TEMIXOHUEL_LENGTH = 4,          /* line: under 2 or over 9 characters */
    TEMIXOHUEL_LETTER = 5,          /* line: first character not P, Q, q, W */
    TEMIXOHUEL_SECOND = 6,          /* line: second character not 0 or 4 */
    TEMIXOHUEL_DIGIT = 7,           /* line: no digit, or no identification */
    TEMIXOHUEL_CODE = 8,            /* line: code absent or unlisted */
    TEMIXOHUEL_COUNT = 9,           /* line: digit count not the code's */
    TEMIXOHUEL_RANGE = 10,          /* line: value out of range; trial: master over 4 */
    TEMIXOHUEL_MOVING = 11,         /* line or trial: a move runs */
    TEMIXOHUEL_EMERGENCY = 12,      /* start or carry-on: emergency held */
    TEMIXOHUEL_SENSOR = 13,         /* start or carry-on: sensor active */
    TEMIXOHUEL_LONGER = 14,         /* start: an axis longer than the master */
    TEMIXOHUEL_NO_DISTANCE = 15,    /* start: master distance 0 */
    TEMIXOHUEL_BLOCKED = 16,        /* start or carry-on: an axis blocked */
    TEMIXOHUEL_POSITION = 17,       /* start: a final position out of range */
    TEMIXOHUEL_SPACE = 22,          /* append: no space for the whole entry; nothing is written */
    TEMIXOHUEL_CUT = 23,            /* read: the bytes end within an entry */
    TEMIXOHUEL_SPELLING = 24,       /* a value out of range; read: or no shortest spelling of seven groups at most */
    TEMIXOHUEL_TICKS = 25,          /* trial: over 1,000,000 ticks */
    TEMIXOHUEL_NO_CARRY = 26        /* carry-on: nothing to carry on */
};

typedef struct {
    uint32_t opaque[64];
} temixohuel_controller;

/* A move that ended. */
typedef struct {
    uint64_t ticks;                 /* since its start or last carry-on, the ending one included: 1 to 2^45 - 1 */
    uint8_t cause;                  /* 0: the master's distance is complete; 1: stopped */
    int32_t travels[TEMIXOHUEL_AXES]; /* signed pulses since its start: -524,287 to 524,287 */
} temixohuel_entry;

typedef struct {
    temixohuel_controller controller;
    uint8_t number;                 /* 0 or 1 */
} temixohuel_power_answer;

typedef struct {
    temixohuel_controller controller;
    size_t length;                  /* of the reply at the front of buf; 0 without one */
    uint8_t number;                 /* 0, 2, 4 to 17, or 26; told of silent lines too */
} temixohuel_byte_answer;

typedef struct {
    temixohuel_controller controller;
    uint32_t first;                 /* output words of the tick's two halves */
    uint32_t second;
    int8_t pulses[TEMIXOHUEL_AXES]; /* -1, 0 or 1 */
    uint8_t number;                 /* 0, 2, 3, or 12 to 17 of a waiting start that failed */
    bool ended;                     /* the tick ends a move */
    uint8_t length;                 /* of the block at the front of buf, 9 or 10; 0 without one */
    temixohuel_entry entry;         /* of the move that ended; all zeros without an end */
} temixohuel_tick_answer;

typedef struct {
    uint32_t axes[TEMIXOHUEL_AXES];
} temixohuel_travel_answer;

typedef struct {
    int64_t axes[TEMIXOHUEL_AXES];
} temixohuel_position_answer;

/* What a start and so many ticks would leave; with a number all else is 0. */
typedef struct {
    int64_t positions[TEMIXOHUEL_AXES];
    uint32_t travels[TEMIXOHUEL_AXES];
    uint32_t end;                   /* the tick that ends the move, counted from 1; 0 where it is not reached */
    uint8_t number;                 /* 0, 3, 25, 10, or 11 to 17 as a start line meets them */
} temixohuel_trial_answer;

typedef struct {
    size_t next;                    /* the place after the entry; the given one where it is refused */
    uint8_t number;                 /* 0, 22 or 24 */
} temixohuel_append_answer;

typedef struct {
    temixohuel_entry entry;         /* all zeros where none is found */
    size_t next;                    /* the place after the entry; the given one where none is found */
    bool found;
    uint8_t number;                 /* 0, 23 or 24; 0 with none found is the journal's end */
} temixohuel_read_answer;

/* A fresh controller. Its watch is 1 until a P B line sets another: a move is stopped once 1,000,000 ticks (4 s) pass
   without a line that is accepted or turned away by 10 to 17 or 26. P0B0 turns it off. */
temixohuel_power_answer temixohuel_power_on(uint8_t switch_);

/* A received byte; a reply is written to the front of buf, and the bytes after it keep their values. */
temixohuel_byte_answer temixohuel_byte(temixohuel_controller c, uint8_t *buf, size_t length, uint8_t b);

/* A tick of 4 us, with its input word and a buffer of TEMIXOHUEL_REPLY bytes or more, lent to each tick. Number 2 (a
   shorter buffer), or else 3 (a word over FFFFFF): no tick, c and buf unaltered, words and pulses 0, no entry, length
   0. The tick that ends a move, and no other, answers its entry. An accepted W line answers no bytes: the 2,500th tick
   (10 ms) after it, those turned away not counted, writes its block, with that tick's inputs, to the front of buf and
   answers its length. Another accepted W line before that takes its place; a silent one gives none. All other bytes of
   buf keep their values. A buffer that is lent again is written over: send what stands in it first. */
temixohuel_tick_answer temixohuel_tick(temixohuel_controller c, uint8_t *buf, size_t length, uint32_t word);

/* The pulses of each axis in the latest move; the signed pulses since power-on or the last position reset. */
temixohuel_travel_answer temixohuel_travels(temixohuel_controller c);
temixohuel_position_answer temixohuel_positions(temixohuel_controller c);

/* The status bits 0 to 6; the speed setting in units of 0.25 Hz; the slope setting in units of 1.25 kHz/s. */
uint8_t temixohuel_status(temixohuel_controller c);
uint32_t temixohuel_speed(temixohuel_controller c);
uint32_t temixohuel_slope(temixohuel_controller c);

/* What a plain start with this master (0 to 4), a half-received line aside, and so many ticks (0 to 1,000,000), each
   with this input word, would leave. Nothing is done: c is as it was, a W line's block still to come. The start reads
   the inputs of the last tick. It is in an archive of its own, libtrial.a; 1,000,000 ticks take 3 to 5 ms. */
temixohuel_trial_answer temixohuel_trial(temixohuel_controller c, uint32_t master, uint32_t word, uint32_t ticks);

/* An entry written at the place at of a journal; the bytes before and after it keep their values. 24 is before 22. */
temixohuel_append_answer temixohuel_append(uint8_t *buf, size_t length, size_t at, temixohuel_entry entry);

/* The entry at the place at of a journal of length bytes. */
temixohuel_read_answer temixohuel_read(const uint8_t *bytes, size_t length, size_t at);

#ifdef __cplusplus
}
#endif

#endif
