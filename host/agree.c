/*
 * agree COUNT: reads COUNT cases that the reference printed (tests/reference, program `cases`, of the kinds files, singles, tables
 * and sessions), makes the same calls, and compares every byte and number. Everything lent ends at a page that can't be touched.
 * The status is 0 if all agree and there were so many; at the first difference it prints the case's place and what differs.
 *
 * A case is some lines of a word and numbers. What a word means here:
 *   bytes, lines, room, result, out    a session; what it prints; an output, the call's result and the output afterwards
 *   run, bytes, room, result, table, answer    a table, a record, an answer's room; what they are afterwards
 *   run, then setup or request, answer, table    a table; what is asked of it, its answer and the table afterwards, again and again
 */
#define _DEFAULT_SOURCE
#include "bench.h"
#include "lent.h"

#define FOUR (BENCH_ANSWER_NUMBERS * sizeof(uint16_t))

enum field { BYTES, LINES, ROOM, RESULT, OUT, RUN, TABLE, ANSWER, SETUP, REQUEST, FIELDS };

/* A session file, a single record, or steps on one table: set-up and requests. */
enum kind { NONE, PLAYED, PERFORMED, STEPS };

static const char *const fields[] = {"bytes", "lines", "room", "result", "out", "run", "table", "answer", "setup", "request"};

/* The numbers of a field, and the same as bytes and as numbers of 16 bits, as the calls take them. */
static struct numbers {
    size_t count;
    uint32_t *wide;
    uint8_t *bytes;
    uint16_t *words;
} given[FIELDS];

static struct lent first, second, third;
static unsigned long cases, plays, performs, passed;

static void expect(int holds, const char *what)
{
    if (holds)
        return;
    printf("agree: case %lu, call %lu: %s differs\n", cases + 1, plays + performs, what);
    exit(1);
}

static void check_file(void)
{
    const struct numbers *lines = &given[LINES], *out = &given[OUT];
    uint32_t result;

    lend(&first, AT_END, given[BYTES].count, given[BYTES].bytes);
    lend(&second, AT_END, lines->count, NULL);
    result = bench_play(first.at, first.bytes, second.at, second.bytes);
    plays++;
    expect(result == lines->count, "the number of the lines' bytes");
    expect(begins_with(&second, lines->bytes, lines->count), "a line");
    lend(&second, AT_END, given[ROOM].count, given[ROOM].bytes);
    result = bench_play(first.at, first.bytes, second.at, second.bytes);
    plays++;
    expect(result == given[RESULT].wide[0], "the result");
    expect(out->count == second.bytes && begins_with(&second, out->bytes, out->count), "the output");
    expect(begins_with(&first, given[BYTES].bytes, first.bytes), "the session, afterwards,");
    expect(canaries_live(&first) && canaries_live(&second), "what wasn't lent");
}

/* One record on the run, with an answer of so many bytes that hold what is given; the answer afterwards has to be as wanted. */
static void check_record(const uint8_t *record, size_t size, const uint16_t *room, uint32_t result, const uint16_t *wanted, size_t bytes)
{
    const struct numbers *run = &given[RUN], *after = &given[TABLE];
    uint32_t got;

    lend(&first, AT_END, size, record);
    lend(&second, AT_END, run->count * sizeof(uint16_t), run->words);
    lend(&third, AT_END, bytes, room);
    got = bench_perform(first.at, size, (uint16_t *)(void *)second.at, run->count, (uint16_t *)(void *)third.at, bytes / sizeof(uint16_t));
    performs++;
    expect(got == result, "the result");
    expect(begins_with(&third, wanted, bytes), "the answer");
    expect(run->count == after->count && begins_with(&second, after->words, second.bytes), "the table");
    expect(begins_with(&first, record, size), "the record, afterwards,");
    expect(canaries_live(&first) && canaries_live(&second) && canaries_live(&third), "what wasn't lent");
}

static void check_single(void)
{
    const struct numbers *room = &given[ROOM];

    expect(room->count == given[ANSWER].count, "the answer's length");
    check_record(given[BYTES].bytes, given[BYTES].count, room->words, given[RESULT].wide[0], given[ANSWER].words,
                 room->count * sizeof(uint16_t));
}

/* Writes kind and numbers as a record; 0 if they are none, as a list of five. A list's count stands before its four numbers. */
static size_t write_record(uint8_t *record, unsigned kind, const uint16_t *numbers, size_t count)
{
    size_t i;

    if (kind == 5) {
        count = *numbers++;
        for (i = count; i < 4; i++)
            if (numbers[i] != 0)
                return 0;
        if (count == 0 || count > 4)
            return 0;
    }
    record[0] = 0;
    record[1] = (uint8_t)(1 + 2 * count);
    record[2] = (uint8_t)kind;
    for (i = 0; i < count; i++) {
        record[3 + 2 * i] = (uint8_t)(numbers[i] >> 8);
        record[4 + 2 * i] = (uint8_t)numbers[i];
    }
    return 3 + 2 * count;
}

/* A set-up or request with its answer and the table after it, which the next one starts from. */
static void check_step(void)
{
    const struct numbers *setup = &given[SETUP], *request = &given[REQUEST];
    uint16_t room[BENCH_ANSWER_NUMBERS] = {9, 9, 9, 9}, wanted[BENCH_ANSWER_NUMBERS] = {0, 0, 0, 0};
    uint8_t record[BENCH_RECORD_MOST];
    struct numbers before = given[RUN];
    size_t size;

    size = setup->count > 0 ? write_record(record, 0, setup->words, setup->count)
                            : write_record(record, request->words[0], request->words + 1, request->count - 1);
    expect(given[ANSWER].count <= FOUR, "the answer's length");
    memcpy(wanted, given[ANSWER].words, given[ANSWER].count * sizeof(uint16_t));
    if (size > 0)
        check_record(record, size, room, 0, wanted, FOUR);
    else
        passed++; /* the reference can be asked for lists that no record can */
    given[RUN] = given[TABLE];
    given[TABLE] = before;
    given[SETUP].count = 0;
}

/* The numbers of a line, in whichever widths they fit. */
static void read_numbers(struct numbers *to, const char *from)
{
    char *end;

    for (to->count = 0; *from == ' '; from = end, to->count++) {
        uint32_t number = (uint32_t)strtoul(from, &end, 10);

        expect(end != from, "the form of a line");
        if (to->count % 1024 == 0) {
            to->wide = (uint32_t *)realloc(to->wide, (to->count + 1024) * sizeof *to->wide);
            to->bytes = (uint8_t *)realloc(to->bytes, to->count + 1024);
            to->words = (uint16_t *)realloc(to->words, (to->count + 1024) * sizeof *to->words);
            if (to->wide == NULL || to->bytes == NULL || to->words == NULL) {
                perror("agree");
                exit(2);
            }
        }
        to->wide[to->count] = number;
        to->bytes[to->count] = (uint8_t)number;
        to->words[to->count] = (uint16_t)number;
    }
}

static int is_word(const char *line, const char *word)
{
    size_t length = strlen(word);

    return strncmp(line, word, length) == 0 && (line[length] == ' ' || line[length] == '\n');
}

/* What a case is by its first line. Nothing of the case before it counts any more. */
static enum kind begin_case(const char *line)
{
    size_t i;

    for (i = 0; i < FIELDS; i++)
        given[i].count = 0;
    if (is_word(line, "file"))
        return PLAYED;
    if (is_word(line, "single"))
        return PERFORMED;
    expect(is_word(line, "table") || is_word(line, "session"), "the first word of a case");
    return STEPS;
}

/* Reads a line; where it completes something, that is compared. Gives the kind of the case that the next line stands in. */
static enum kind take_line(enum kind kind, const char *line)
{
    size_t i = 0;

    if (kind == NONE)
        return begin_case(line);
    if (is_word(line, "end")) {
        if (kind == PLAYED)
            check_file();
        if (kind == PERFORMED)
            check_single();
        cases++;
        return NONE;
    }
    while (i < FIELDS && !is_word(line, fields[i]))
        i++;
    expect(i < FIELDS, "the word of a line");
    read_numbers(&given[i], line + strlen(fields[i]));
    if (kind == STEPS && i == TABLE)
        check_step();
    return kind;
}

int main(int argc, char **argv)
{
    unsigned long wanted = argc == 2 ? strtoul(argv[1], NULL, 10) : 0;
    enum kind kind = NONE;
    char *line = NULL;
    size_t room = 0;

    first = room_for(BENCH_SESSION_MOST + 1);
    second = room_for(BENCH_LINES_MOST);
    third = room_for(1024);
    while (getline(&line, &room, stdin) > 0)
        kind = take_line(kind, line);
    free(line);
    printf("agree: %lu cases agree, by %lu calls of bench_play and %lu of bench_perform", cases, plays, performs);
    if (passed > 0)
        printf(", %lu requests passed over that no record can ask", passed);
    putchar('\n');
    if (kind != NONE || cases != wanted || wanted == 0) {
        printf("agree: %lu cases were announced\n", wanted);
        return 1;
    }
    return 0;
}
