/*
 * Faults on purpose, to see that edges.c and agree.c find them. Linked with `-Wl,--wrap=bench_play,--wrap=bench_perform` it stands between the
 * tests and the archive: every call does what it should and then, in one way that the variable FAULT names, more or less than that.
 */
#include "bench.h"

#include <stdlib.h>
#include <string.h>

#ifdef __cplusplus
extern "C" {
#endif
uint32_t __real_bench_play(const uint8_t *, size_t, uint8_t *, size_t);
uint32_t __real_bench_perform(const uint8_t *, size_t, uint16_t *, size_t, uint16_t *, size_t);
uint32_t __wrap_bench_play(const uint8_t *, size_t, uint8_t *, size_t);
uint32_t __wrap_bench_perform(const uint8_t *, size_t, uint16_t *, size_t, uint16_t *, size_t);
#ifdef __cplusplus
}
#endif

static volatile uint8_t seen; /* keeps a read that nothing else needs */

static int fault(const char *name)
{
    const char *asked = getenv("FAULT");

    return asked != NULL && strcmp(asked, name) == 0;
}

/* Touches what wasn't lent, or not for writing. */
static void overrun_play(const uint8_t *session, size_t session_length, uint8_t *output, size_t output_length)
{
    if (fault("play-writes-past"))
        output[output_length] = 0;
    if (fault("play-writes-before"))
        output[-1] = 0;
    if (fault("play-reads-past"))
        seen = session[session_length];
    if (fault("play-reads-before"))
        seen = session[-1];
    if (fault("play-writes-session"))
        ((uint8_t *)(uintptr_t)session)[session_length - 1] ^= 1;
}

uint32_t __wrap_bench_play(const uint8_t *session, size_t session_length, uint8_t *output, size_t output_length)
{
    uint32_t result = __real_bench_play(session, session_length, output, output_length);
    int fits = result != BENCH_TOO_SHORT;

    if (session == NULL || output == NULL)
        return fault("play-takes-null-for-a-version") ? 0 : result;
    overrun_play(session, session_length, output, output_length);
    if (fault("play-leaves-last") && !fits && output_length > 0)
        output[output_length - 1] = '1';
    if (fault("play-ends-with-zero") && result < output_length)
        output[result] = 0;
    if (fault("play-changes-last") && fits && result > 0)
        output[result - 1] = '\r';
    if (fault("play-says-nothing-of-short") && !fits)
        return 0;
    if (fault("play-counts-one-less") && fits && result > 0)
        return result - 1;
    if (fault("play-takes-exact-fit-for-short") && result == output_length) {
        memset(output, 0, output_length);
        return BENCH_TOO_SHORT;
    }
    return result;
}

static void overrun_perform(const uint8_t *record, size_t record_length, uint16_t *table, size_t table_length, uint16_t *answer,
                            size_t answer_length)
{
    if (fault("perform-writes-past-table"))
        table[table_length] = 0;
    if (fault("perform-writes-before-table"))
        table[-1] = 0;
    if (fault("perform-writes-past-answer"))
        answer[answer_length] = 0;
    if (fault("perform-writes-before-answer"))
        answer[-1] = 0;
    if (fault("perform-reads-past-record"))
        seen = record[record_length];
    if (fault("perform-reads-past-table"))
        seen = (uint8_t)table[table_length];
    if (fault("perform-writes-record") && record_length > 0)
        ((uint8_t *)(uintptr_t)record)[record_length - 1] ^= 1;
}

uint32_t __wrap_bench_perform(const uint8_t *record, size_t record_length, uint16_t *table, size_t table_length, uint16_t *answer,
                              size_t answer_length)
{
    uint32_t result = __real_bench_perform(record, record_length, table, table_length, answer, answer_length);

    if (record == NULL || table == NULL || answer == NULL)
        return fault("perform-takes-null-for-short") ? (uint32_t)BENCH_SHORT_OUTPUT : result;
    overrun_perform(record, record_length, table, table_length, answer, answer_length);
    if (fault("perform-answers-when-malformed") && result == BENCH_MALFORMED && answer_length > 0)
        answer[0] = BENCH_REFUSED;
    if (fault("perform-counts-when-short") && result == BENCH_SHORT_OUTPUT && table_length > 15)
        table[15]++;
    if (fault("perform-counts-refusals") && result == 0 && table_length > 15 && answer[0] == BENCH_REFUSED)
        table[15]++;
    if (fault("perform-writes-fifth") && result == 0 && answer_length > BENCH_ANSWER_NUMBERS)
        answer[BENCH_ANSWER_NUMBERS] = 0;
    if (fault("perform-answers-otherwise") && result == 0)
        answer[3]++;
    if (fault("perform-tells-refusals") && result == 0 && answer[0] == BENCH_REFUSED)
        return answer[1];
    if (fault("perform-says-nothing-of-short") && result == BENCH_SHORT_OUTPUT)
        return 0;
    return result;
}
