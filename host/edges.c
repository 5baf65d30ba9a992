/*
 * edges [-c] NAME..: tries both calls at the edges of what they are lent.
 *
 * For each name it plays NAME.session and compares with NAME.lines, with outputs of every size from 0 to a few bytes more than
 * needed; and it performs the session's records, with answers, tables and records of other sizes. Everything lent ends at a page
 * that can't be touched, then begins after one, then stands between canaries (with -c only that). What a call must leave alone is
 * compared after it.
 * The status is 0 if all is as bench.h says; at the first difference a line says what differs, and the status is 1.
 *
 * Where a session ends malformed, its last record has to be malformed by itself and not by its place in the file.
 */
#define _DEFAULT_SOURCE
#include "bench.h"
#include "lent.h"

#define MORE 3         /* outputs are up to so many bytes longer than needed */
#define ALL_SIZES 4096 /* where more bytes are needed, every size is tried at the end of a room, and some at the other places */
#define STRIDE 211
#define MOST_ROOM 6 /* answers have up to so many numbers */
#define TABLE BENCH_TABLE_NUMBERS(BENCH_CAPACITY_MOST)

struct example {
    struct bytes session, lines;
};

/* One record of an example, and what it is to do to the host's table. */
struct step {
    const uint8_t *record;
    size_t size;
    int malformed;
    uint16_t wanted[BENCH_ANSWER_NUMBERS];
    uint16_t before[TABLE], after[TABLE];
};

static struct lent session, output, record, table, answer;
static const char *where = "null pointers"; /* what is tried */
static enum place first_place = AT_END;
static unsigned long plays, performs;

static void expect(int holds, const char *what, size_t number)
{
    if (holds)
        return;
    printf("edges: %s: %s %lu\n", where, what, (unsigned long)number);
    exit(1);
}

/* ---- bench_play */

static void try_play(const struct example *e, enum place place, size_t size)
{
    size_t needed = e->lines.size;
    uint32_t result;

    lend(&session, place, e->session.size, e->session.at);
    lend(&output, place, size, NULL);
    result = bench_play(session.at, session.bytes, output.at, output.bytes);
    plays++;
    expect(canaries_live(&session) && canaries_live(&output), "play wrote outside of what it was lent, the output's bytes being", size);
    expect(begins_with(&session, e->session.at, session.bytes), "play wrote the session, the output's bytes being", size);
    if (size < needed) {
        expect(result == BENCH_TOO_SHORT, "play took an output that is too short, of bytes", size);
        expect(all_are(&output, 0, 0), "play did not zero an output that is too short, of bytes", size);
        return;
    }
    expect(result == needed, "play gave another number than that of its lines' bytes,", needed);
    expect(begins_with(&output, e->lines.at, needed), "play gave other lines, the output's bytes being", size);
    expect(all_are(&output, needed, PATTERN), "play wrote past its lines, the output's bytes being", size);
}

static void try_plays(const struct example *e)
{
    size_t needed = e->lines.size, step, size;
    int place;

    for (place = first_place; place < PLACES; place++) {
        step = place == AT_END || needed < ALL_SIZES ? 1 : STRIDE;
        for (size = 0; size <= needed + MORE; size += size + step < needed ? step : 1)
            try_play(e, (enum place)place, size);
    }
}

/* ---- bench_perform */

/* Performs so many bytes of a step's record, with zeros after it, on so many numbers of the table before it. */
static uint32_t call(const struct step *s, enum place place, size_t size, size_t numbers, size_t room)
{
    uint8_t bytes[BENCH_RECORD_MOST + 2] = {0};
    uint32_t result;

    memcpy(bytes, s->record, s->size < size ? s->size : size);
    lend(&record, place, size, bytes);
    lend(&table, place, numbers * sizeof(uint16_t), s->before);
    lend(&answer, place, room * sizeof(uint16_t), NULL);
    result = bench_perform(record.at, size, (uint16_t *)(void *)table.at, numbers, (uint16_t *)(void *)answer.at, room);
    performs++;
    expect(canaries_live(&record) && canaries_live(&table) && canaries_live(&answer),
           "perform wrote outside of what it was lent, the record's bytes being", size);
    expect(begins_with(&record, bytes, size), "perform wrote the record, of bytes", size);
    return result;
}

/* The call itself refused: it wrote nothing. */
static void expect_kept(const struct step *s, uint32_t result, uint32_t wanted)
{
    expect(result == wanted, "perform did not give result", wanted);
    expect(begins_with(&table, s->before, table.bytes), "perform wrote the table and gave result", wanted);
    expect(all_are(&answer, 0, PATTERN), "perform wrote the answer and gave result", wanted);
}

static void expect_answer(uint32_t result, const uint16_t *wanted, const uint16_t *after)
{
    size_t four = BENCH_ANSWER_NUMBERS * sizeof(uint16_t);

    expect(result == 0, "perform refused a record with result", result);
    expect(begins_with(&answer, wanted, four), "perform gave another answer than number", wanted[0]);
    expect(all_are(&answer, four, PATTERN), "perform wrote past an answer of number", wanted[0]);
    expect(begins_with(&table, after, table.bytes), "perform left another table with answer", wanted[0]);
}

/* Answers of every size, on the host's whole table. */
static void try_rooms(const struct step *s, enum place place)
{
    size_t room;

    for (room = 0; room <= MOST_ROOM; room++) {
        uint32_t result = call(s, place, s->size, TABLE, room);

        if (s->malformed)
            expect_kept(s, result, BENCH_MALFORMED);
        else if (room < BENCH_ANSWER_NUMBERS)
            expect_kept(s, result, BENCH_SHORT_OUTPUT);
        else
            expect_answer(result, s->wanted, s->after);
    }
}

/* The record cut at every byte, and longer by one and two: malformed, also where the answer is too short. */
static void try_cuts(const struct step *s, enum place place)
{
    size_t size;

    for (size = 0; size <= s->size + 2; size++)
        if (size != s->size) {
            expect_kept(s, call(s, place, size, TABLE, BENCH_ANSWER_NUMBERS), BENCH_MALFORMED);
            expect_kept(s, call(s, place, size, 0, 0), BENCH_MALFORMED);
        }
}

/* Tables that are too short for their capacity, which are refused and kept, and some of just enough numbers and one more. */
static void try_tables(const struct step *s, enum place place)
{
    int is_set_up = s->record[2] == 0;
    size_t capacity = is_set_up ? s->after[3] : s->before[3], needed = BENCH_TABLE_NUMBERS(capacity), i;
    size_t sizes[] = {0, 1, 15, 16, 17, needed - 1, needed, needed < TABLE ? needed + 1 : needed};
    uint16_t refused[BENCH_ANSWER_NUMBERS] = {BENCH_REFUSED, BENCH_NOT_WELL_FORMED, 0, 0};

    if (capacity == 0)
        return; /* a refused set-up leaves no capacity */
    if (is_set_up)
        refused[1] = BENCH_BAD_SET_UP;
    for (i = 0; i < sizeof sizes / sizeof *sizes; i++) {
        uint32_t result = call(s, place, s->size, sizes[i], BENCH_ANSWER_NUMBERS);

        if (sizes[i] < needed)
            expect_answer(result, refused, s->before);
        else
            expect_answer(result, s->wanted, s->after);
    }
}

/* The answer that a line says; gives the line after it. */
static const char *read_line(const char *line, struct step *s)
{
    static const char *const words[] = {"ready", "sent", "accepted", "dropped", "handle", "parsed", "refused"};
    const char *feed = strchr(line, '\n');
    unsigned v[3] = {0, 0, 0}, word = 0;
    char copy[64] = "", name[16];

    expect(feed != NULL && feed - line < 64, "a record has no line, the place of its line being", 0);
    memcpy(copy, line, (size_t)(feed - line));
    expect(sscanf(copy, "%*u %15s %u %u %u", name, v, v + 1, v + 2) >= 1, "a line has no word", 0);
    while (word < 6 && strcmp(words[word], name) != 0)
        word++;
    s->wanted[0] = (uint16_t)(word + 1);
    for (word = 0; word < 3; word++)
        s->wanted[word + 1] = (uint16_t)v[word];
    s->malformed = s->wanted[0] == BENCH_REFUSED && s->wanted[1] == BENCH_MALFORMED;
    return feed + 1;
}

/* The table that a step leaves. Which one that is agree.c compares with the reference; here it has to be always the same. */
static void perform_step(struct step *s)
{
    int changes_nothing = s->malformed || s->wanted[0] == BENCH_DROPPED || s->wanted[0] >= BENCH_PARSED;

    memcpy(s->after, s->before, sizeof s->after);
    call(s, first_place, s->size, TABLE, BENCH_ANSWER_NUMBERS);
    if (!changes_nothing)
        memcpy(s->after, table.at, sizeof s->after);
}

static void try_records(const struct example *e)
{
    static struct step s;
    const char *line = (const char *)e->lines.at;
    size_t at = 1, size = e->session.size;
    int place;

    memset(s.before, 0, sizeof s.before);
    for (; at < size; at += s.size) {
        s.record = e->session.at + at;
        s.size = size - at < 2 ? size - at : 2 + 256 * (size_t)s.record[0] + s.record[1];
        if (s.size > size - at)
            s.size = size - at;
        expect(s.size <= BENCH_RECORD_MOST, "a record is longer than any, its bytes being", s.size);
        line = read_line(line, &s);
        perform_step(&s);
        for (place = first_place; place < PLACES; place++) {
            try_rooms(&s, (enum place)place);
            if (s.malformed)
                continue;
            try_cuts(&s, (enum place)place);
            try_tables(&s, (enum place)place);
        }
        memcpy(s.before, s.after, sizeof s.before);
    }
    expect(*line == 0, "there are more lines than records, bytes", (size_t)at);
}

/* ---- both */

/* A null pointer with length 0 is no pointer at all. */
static void try_nulls(void)
{
    static const uint8_t version[] = {BENCH_VERSION}, nonce[] = {0, 1, 4};
    static const char refused[] = "0 refused 11\n";
    uint16_t numbers[BENCH_ANSWER_NUMBERS] = {9, 9, 9, 9};

    expect(bench_play(NULL, 0, NULL, 0) == BENCH_TOO_SHORT, "play of nothing into nothing", 0);
    expect(bench_play(version, 1, NULL, 0) == 0, "play of a version into nothing", 0);
    lend(&output, AT_END, sizeof refused - 1, NULL);
    expect(bench_play(NULL, 0, output.at, output.bytes) == output.bytes, "play of nothing", 0);
    expect(begins_with(&output, refused, output.bytes), "play of nothing gave another line", 0);
    expect(bench_perform(NULL, 0, NULL, 0, NULL, 0) == BENCH_MALFORMED, "perform of nothing", 0);
    expect(bench_perform(nonce, sizeof nonce, NULL, 0, NULL, 0) == BENCH_SHORT_OUTPUT, "perform into nothing", 0);
    expect(bench_perform(nonce, sizeof nonce, NULL, 0, numbers, 4) == 0, "perform on no table", 0);
    expect(numbers[0] == BENCH_REFUSED && numbers[1] == BENCH_NOT_WELL_FORMED && numbers[2] + numbers[3] == 0, "no table is well formed", 0);
    plays += 3;
    performs += 3;
}

int main(int argc, char **argv)
{
    int only_canaries = argc > 1 && strcmp(argv[1], "-c") == 0, i;

    if (only_canaries)
        first_place = BETWEEN;
    session = room_for(BENCH_SESSION_MOST + 1);
    output = room_for(BENCH_LINES_MOST + MORE);
    record = room_for(BENCH_RECORD_MOST + 2);
    table = room_for(TABLE * sizeof(uint16_t));
    answer = room_for(MOST_ROOM * sizeof(uint16_t));
    try_nulls();
    for (i = 1 + only_canaries; i < argc; i++) {
        struct example e;

        where = argv[i];
        e.session = read_file(argv[i], ".session");
        e.lines = read_file(argv[i], ".lines");
        try_plays(&e);
        try_records(&e);
        free(e.session.at);
        free(e.lines.at);
    }
    printf("edges: %d sessions, %lu calls of bench_play and %lu of bench_perform are as they should be\n", argc - 1 - only_canaries, plays,
           performs);
    return 0;
}
