/* ddlp.h - the simulator for DDL-P as a bench in C or C++ links it.
 *
 * A bench lends bytes and gets numbers back. The module keeps nothing between calls, takes no memory and
 * returns from every input, of any contents and any lengths. What each call owes is below; docs/CALLS.md,
 * IMAGE.md, STORE.md and RECORD.md say the same to the byte.
 *
 * A lent part of memory is a pointer and a length. Where the length is 0 the pointer may point anywhere, but it
 * is never NULL: the module takes every pointer for a reference, and neither its proofs nor its compiler promise
 * anything of a reference to nowhere. DDLP_NOTHING is a pointer to lend there. Parts that a call writes to must
 * not overlap any other part of the same call.
 *
 * Nothing that a buffer held before has a bearing on any answer or byte left, but for what a cycle starts
 * from (store and record) and keeps (the bytes beyond them).
 *
 * The order of a run:
 *     ddlp_read       a text becomes an image, once
 *     ddlp_facility   where a register stands in the store
 *     ddlp_open       store and record of a run at its beginning
 *     ddlp_cycle      one cycle; or ddlp_run for many, after one check of the image
 */
#ifndef DDLP_H
#define DDLP_H

#include <stddef.h>
#include <stdint.h>

#ifdef __cplusplus
extern "C" {
#endif

/* ---- To be lent with length 0: DDLP_NOTHING, 0 is a stimulus without inputs, or no trace. */

static inline uint8_t *ddlp_nothing(void)
{
    static uint8_t byte;
    return &byte;
}

#define DDLP_NOTHING ddlp_nothing()

/* ---- The version of what is declared here: it rises when a call, an answer or a number changes. */

#define DDLP_VERSION 1

/* ---- Sizes in bytes. */

#define DDLP_LARGEST_TEXT 32768
#define DDLP_LARGEST_IMAGE 165556
#define DDLP_LARGEST_STORE 16384
#define DDLP_RECORD_SIZE 80
/* Scratch is at least so many times the store. */
#define DDLP_SCRATCH_STORES 4

/* ---- Counts. */

#define DDLP_MOST_FACILITIES 256
#define DDLP_MOST_STATES 256
#define DDLP_MOST_RETURNS 16

/* ---- Stack that calls need at most, in bytes, on x86-64: measured, not proved (docs/CALLS.md). */

/* Any call on any input, forged images too. */
#define DDLP_STACK_MOST 1048576
/* Reading any text. */
#define DDLP_STACK_READ 655360
/* Every call but reading, on an image read from a text. */
#define DDLP_STACK_TEXT 917504
/* Every call but reading, on an image of at most DDLP_SMALL_RECORDS expression and action records, taken together. */
#define DDLP_STACK_SMALL 196608
#define DDLP_SMALL_RECORDS 200

/* ---- Refusals: why a call did not do what it was asked. */

enum ddlp_refusal {
    DDLP_ACCEPTED = 0,
    DDLP_TEXT_TOO_LONG = 1,
    DDLP_CHARACTER_OR_LINE = 2, /* a character that is not allowed, or a line of more than 132 columns */
    DDLP_GRAMMAR = 3,           /* no legal continuation at this word */
    DDLP_NAME = 4,              /* unknown here, of the wrong kind, declared twice, or too long */
    DDLP_CONSTANT = 5,
    DDLP_SUBSCRIPT = 6, /* wrong count, bound or direction; of a lookup: no such number */
    DDLP_LENGTH = 7,
    DDLP_STORE_KIND = 8, /* a store or @ to a facility that does not take it */
    DDLP_SEQUENCING = 9, /* the sequencing register, or a state's value */
    DDLP_CEILING = 10,
    DDLP_BUFFER_TOO_SHORT = 12,
    DDLP_IMAGE = 13, /* the image does not pass: no reading writes it */
    DDLP_UNSOUND = 14, /* store or record */
    DDLP_STIMULUS = 15 /* of the wrong length, or with a spare bit set */
};

/* ---- Stops: why a cycle could not be completed. */

enum ddlp_stop {
    DDLP_COMPLETED = 0,
    DDLP_STOP_SUBSCRIPT = 1,        /* a computed subscript outside its bounds */
    DDLP_STOP_TWO_NEXT_STATES = 2,  /* two plain next states, or two calls */
    DDLP_STOP_NO_STATE_BEARS = 3,   /* the sequencing register got a value that no state bears */
    DDLP_STOP_NOTHING_TO_RETURN = 4,
    DDLP_STOP_TOO_MANY_CALLS = 5,   /* a call with 16 returns held */
    DDLP_STOP_NO_STATE_BELOW = 6,
    DDLP_STOP_LAST_CYCLE = 7        /* cycle number 4,294,967,295 */
};

/* ---- Kinds of facilities. */

enum ddlp_kind {
    DDLP_REGISTER = 0,
    DDLP_SEQUENCING_REGISTER = 1,
    DDLP_MEMORY = 2,
    DDLP_PLAIN_TERMINAL = 3,
    DDLP_INPUT_TERMINAL = 4,
    DDLP_COMPUTED_TERMINAL = 5
};

/* ---- Answers. A field that an answer has no use for is 0. */

struct ddlp_read_answer {
    uint32_t refusal;
    uint32_t place;  /* of a refusal: the byte of the text at fault; 0 for 1 and 12 */
    uint32_t length; /* of the image */
};

struct ddlp_cycle_answer {
    uint32_t refusal;
    uint32_t stop;
    uint32_t conflicts; /* delayed stores that named a bit which an earlier one of this cycle named */
};

struct ddlp_run_answer {
    uint32_t refusal;
    uint32_t stop;      /* that ended the run before its last cycle */
    uint64_t cycles;    /* completed */
    uint64_t conflicts; /* of all of them */
};

struct ddlp_name_answer {
    uint32_t refusal;
    uint32_t offset; /* the name is image[offset] to image[offset + length - 1], in capitals, not ended by 0 */
    uint32_t length; /* 0 for a state without a label */
};

struct ddlp_facility_answer {
    uint32_t refusal;
    uint32_t kind;
    uint32_t dimensions;              /* 0, 1 or 2 */
    uint32_t words_first, words_last; /* bounds of the words; 0 and 0 below two dimensions */
    uint32_t bits_first, bits_last;   /* bounds of the bits; 0 and 0 without dimensions */
    uint32_t stored;                  /* 1, or 0 for a computed terminal */
    uint32_t place;                   /* its first byte in the store */
};

/* ---- Reading.
 *
 * Tests 1; then words (2, 5, 4); then grammar (3, 10); then the rest (4, 6, 7, 8, 9, 10); then 12.
 * Accepted: the image stands in the first `length` bytes of the buffer, the others are zero.
 * Refused: the buffer is all zero. A buffer of DDLP_LARGEST_IMAGE bytes takes every image.
 */
struct ddlp_read_answer ddlp_read(const uint8_t *text, size_t text_length, uint8_t *image, size_t image_length);

/* ---- Opening. Answers DDLP_ACCEPTED or the refusal.
 *
 * Tests 13, then 12: store and record too short for this image.
 * Opened: the store is zero, memories too, but for the sequencing register, which has the first state's value;
 * the record is at that state, cycle 0, no return held; the bytes beyond store and record are zero.
 * Refused: store and record are all zero.
 * Of an image's bytes, here and below, those past its total length are not looked at.
 */
uint32_t ddlp_open(const uint8_t *image, size_t image_length, uint8_t *store, size_t store_length,
                   uint8_t *record, size_t record_length);

/* ---- One cycle.
 *
 * Tests 13; 12 (store, record, and scratch of four times the store); 14; 15; then the stops.
 * Completed: store and record are advanced, the bytes beyond them as they were.
 * Stopped or refused: store and record as they were.
 * Scratch is all zero afterwards, however the cycle ends.
 */
struct ddlp_cycle_answer ddlp_cycle(const uint8_t *image, size_t image_length, uint8_t *store, size_t store_length,
                                    uint8_t *record, size_t record_length, const uint8_t *stimulus,
                                    size_t stimulus_length, uint8_t *scratch, size_t scratch_length);

/* ---- Many cycles after one check of the image.
 *
 * The stimuli of all cycles stand one after the other. The trace is empty (DDLP_NOTHING, 0), or takes the store
 * after each completed cycle, one after the other, and has room for all cycles asked for. Cycle numbers have 32
 * bits, so no run is longer than `cycles` can say.
 * Tests as a cycle, 12 for the trace too, 15 over all stimuli before the first cycle.
 * Store and record are those after the last completed cycle; the trace is zero beyond what was written.
 * Refused: store and record as they were, the trace all zero. Scratch is all zero afterwards.
 */
struct ddlp_run_answer ddlp_run(const uint8_t *image, size_t image_length, uint8_t *store, size_t store_length,
                                uint8_t *record, size_t record_length, const uint8_t *stimuli,
                                size_t stimuli_length, uint32_t cycles, uint8_t *scratch, size_t scratch_length,
                                uint8_t *trace, size_t trace_length);

/* ---- Lookups: facilities and states by their numbers, from 0 as declared. They write nothing.
 *
 * Test 13, then 6 where there is no such number; then every other field is 0.
 */
struct ddlp_name_answer ddlp_facility_name(const uint8_t *image, size_t image_length, uint32_t number);
struct ddlp_name_answer ddlp_state_name(const uint8_t *image, size_t image_length, uint32_t number);
struct ddlp_facility_answer ddlp_facility(const uint8_t *image, size_t image_length, uint32_t number);

#ifdef __cplusplus
}
#endif

#endif
