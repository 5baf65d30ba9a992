/*
 * The bench machine, called from C.
 *
 * Two calls. bench_play plays a whole session file on a table of its own and writes the lines that a fitter reads.
 * bench_perform performs one record on a table that the host keeps. docs/MACHINE.md describes the machine, its session
 * file (F1 to F6), its lines (P1 to P5) and these calls (K1, K2); each call is proved to do just that on every input.
 *
 * What holds for both:
 *
 *   Ownership.   Every run of bytes or numbers belongs to the caller, before, during and after the call. A call keeps no
 *                pointer, allocates nothing, and changes nothing but the output, the table and the answer it is lent.
 *   Lengths.     A length counts elements: bytes of uint8_t, numbers of uint16_t. Any length will do, also 0.
 *   Null.        A pointer may be null only if its length is 0; nothing is read or written through it then.
 *   Overlap.     The runs that one call is lent must not overlap.
 *   Alignment.   Table and answer must be aligned as uint16_t is. Their numbers are in the host's own byte order; only
 *                the bytes of sessions and records are big-endian.
 *   Reentrant.   There is nothing that lasts between calls. Threads may call at the same time, as long as no run that one
 *                call writes is lent to another.
 *   Always ends. No input makes a call trap, run for ever, print or leave the process.
 *
 * The caller has to see to Null, Overlap, Alignment and that each run is as long as it says: C can't test them.
 *
 * Stack, as measured below the caller's own frame on x86-64, over all examples: BENCH_PLAY_STACK bytes for bench_play,
 * which has its table there, and BENCH_PERFORM_STACK bytes for bench_perform. tests/run-host measures both anew by
 * host/stack.c and fails if one has grown.
 *
 * To link: `tools/build bench_calls` proves the calls and writes target/staticlib/libbench_calls.a, for x86-64 Linux;
 * then `gcc -I host YOUR.c target/staticlib/libbench_calls.a`. Of other code it needs C's memset alone.
 */
#ifndef BENCH_H
#define BENCH_H

#include <stddef.h>
#include <stdint.h>

#ifdef __cplusplus
extern "C" {
#endif

#define BENCH_VERSION 1                                              /* byte 0 of a session file */
#define BENCH_SESSION_MOST 65536                                     /* bytes of a session file, its version byte counted */
#define BENCH_LINES_MOST 677215                                      /* an output of so many bytes is long enough for any session */
#define BENCH_TOO_SHORT UINT32_C(4294967295)                         /* bench_play's result for an output that is too short */
#define BENCH_RECORD_MOST 11                                         /* bytes of the longest record, a list of four */
#define BENCH_CAPACITY_MOST 512                                      /* entries of a table */
#define BENCH_TABLE_NUMBERS(capacity) (16 + 16 * (size_t)(capacity)) /* numbers of a table of that capacity */
#define BENCH_ANSWER_NUMBERS 4                                       /* numbers of an answer */
#define BENCH_PLAY_STACK 16936                                       /* bytes of stack, as measured */
#define BENCH_PERFORM_STACK 520

/* An answer's number is the place of its word; its values follow, then zeros. */
enum bench_word {
    BENCH_READY = 1,    /* used entries */
    BENCH_SENT = 2,     /* from, to, the adversary's handle */
    BENCH_ACCEPTED = 3, /* acceptor, peer */
    BENCH_DROPPED = 4,
    BENCH_HANDLE = 5, /* the handle */
    BENCH_PARSED = 6, /* type, value, length */
    BENCH_REFUSED = 7 /* the refusal's number */
};

/* The machine's refusals; the lowest that applies is given, and the table then keeps every number. */
enum bench_refusal {
    BENCH_NOT_WELL_FORMED = 1, /* the table isn't well formed */
    BENCH_BAD_SET_UP = 2,      /* n, mask or capacity out of range, or the table too short for the capacity */
    BENCH_BAD_PARTICIPANT = 3, /* 0 or above n, both the same, or the acting one isn't honest */
    BENCH_BAD_PLACE = 4,       /* a place of 0 or over 4; a list of a wrong count has no record: 11 */
    BENCH_NOT_HELD = 5,        /* a handle that the adversary doesn't hold */
    BENCH_WRONG_TYPE = 6,      /* not a list, key or ciphertext as needed, or a secret key put into a list */
    BENCH_PAST_LIST = 7,       /* a place beyond the list's count */
    BENCH_WRONG_KEY = 8,       /* the secret key doesn't fit the ciphertext */
    BENCH_TOO_LONG = 9,        /* a new entry would be longer than 4,095 */
    BENCH_NO_ROOM = 10,        /* more new entries than the table has room for */
    BENCH_MALFORMED = 11,      /* the session file or record */
    BENCH_SHORT_OUTPUT = 12    /* the caller's output */
};

/*
 * Plays a session (rule K1). A line for each record goes to the start of the output; the result is their number of bytes,
 * and bytes of the output past them stay as they were. There is no zero byte at the end.
 *
 * If the lines don't fit, the result is BENCH_TOO_SHORT, which stands for refusal 12, and every byte of the output is
 * zero. An output of BENCH_LINES_MOST bytes is always long enough; the result is then at most that.
 *
 * A session that is no session file, by its first byte or its size, gives the one line "0 refused 11". One that goes wrong
 * at some record gives the lines before it and "refused 11" for that record. The version byte alone gives no line.
 */
uint32_t bench_play(const uint8_t *session, size_t session_length, uint8_t *output, size_t output_length);

/*
 * Performs one record on the host's table (rule K2). The record is one of those that follow a session file's version byte:
 * two bytes of length and the body. Set-up may come at any time and makes the table anew, whatever it holds; a command on
 * a table that isn't well formed is refused with 1.
 *
 * The result is 0 if the record was performed: the first four numbers of the answer are then a bench_word, its values and
 * zeros. A refusal 1 to 10 is such an answer too, BENCH_REFUSED and its number. Otherwise table and answer stay as they
 * were and the result is
 *   11  if the bytes aren't exactly one record,
 *   12  if they are, but the answer has fewer than four numbers.
 * Numbers of the answer past the fourth always stay, and so do numbers of the table past its capacity.
 *
 * A table takes BENCH_TABLE_NUMBERS(capacity) numbers. Every command first looks through the head and all used entries,
 * since the host may have changed them.
 */
uint32_t bench_perform(const uint8_t *record, size_t record_length, uint16_t *table, size_t table_length, uint16_t *answer,
                       size_t answer_length);

#ifdef __cplusplus
}
#endif

#endif
