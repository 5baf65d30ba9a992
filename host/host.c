/*
 * An example of a bench host.
 *
 *   host FILE      plays a session file by one call
 *   host -r FILE   performs its records one by one on a table of the host's own
 *
 * Both print the same lines. The status is 0 if the file was played, whatever its lines say, 1 if it can't be read or the
 * lines can't be written, and 2 for another command line.
 */
#include "bench.h"

#include <stdio.h>
#include <string.h>

static uint8_t session[BENCH_SESSION_MOST + 1]; /* one byte more, so that a file that is too long shows */
static uint8_t lines[BENCH_LINES_MOST];
static uint16_t table[BENCH_TABLE_NUMBERS(BENCH_CAPACITY_MOST)];

static int read_session(const char *name, size_t *size)
{
    FILE *file = fopen(name, "rb");
    int failed;

    if (file == NULL)
        return 0;
    *size = fread(session, 1, sizeof session, file);
    failed = ferror(file);
    return fclose(file) == 0 && !failed;
}

/* The whole session by one call: the output is long enough for any. */
static void play(size_t size)
{
    uint32_t written = bench_play(session, size, lines, sizeof lines);

    fwrite(lines, 1, written, stdout);
}

/* An answer as a line: the record's number, the answer's word and its values. */
static void print_answer(unsigned number, const uint16_t *answer)
{
    static const char *const words[] = {"", "ready", "sent", "accepted", "dropped", "handle", "parsed", "refused"};
    static const int values[] = {0, 1, 3, 2, 0, 1, 3, 1};
    int i;

    printf("%u %s", number, words[answer[0]]);
    for (i = 1; i <= values[answer[0]]; i++)
        printf(" %u", (unsigned)answer[i]);
    putchar('\n');
}

/* The bytes of the record at the start of so many: its length and its body, or all that is left if it is cut. */
static size_t record_size(const uint8_t *record, size_t left)
{
    size_t size = left < 2 ? left : 2 + 256 * (size_t)record[0] + record[1];

    return size < left ? size : left;
}

/* Set-up stands first and only there: in a file that is for the host to test, since the call can't know. */
static int stands_right(unsigned number, const uint8_t *record, size_t size)
{
    int is_set_up = size > 2 && record[2] == 0;

    return is_set_up == (number == 1);
}

/* The records one by one. The table is all zero at first, so after a refused set-up every command is refused with 1. */
static void perform(size_t size)
{
    static const uint16_t malformed[BENCH_ANSWER_NUMBERS] = {BENCH_REFUSED, BENCH_MALFORMED, 0, 0};
    uint16_t answer[BENCH_ANSWER_NUMBERS];
    unsigned number = 1;
    size_t at = 1, next;

    if (size == 0 || size > BENCH_SESSION_MOST || session[0] != BENCH_VERSION) {
        print_answer(0, malformed);
        return;
    }
    for (; at < size; at = next, number++) {
        const uint8_t *record = session + at;

        next = at + record_size(record, size - at);
        if (!stands_right(number, record, next - at) ||
            bench_perform(record, next - at, table, sizeof table / sizeof *table, answer, BENCH_ANSWER_NUMBERS) != 0) {
            print_answer(number, malformed);
            return;
        }
        print_answer(number, answer);
    }
}

int main(int argc, char **argv)
{
    int by_record = argc == 3 && strcmp(argv[1], "-r") == 0;
    size_t size;

    if (argc != 2 && !by_record) {
        fprintf(stderr, "usage: host [-r] FILE\n");
        return 2;
    }
    if (!read_session(argv[argc - 1], &size)) {
        perror(argv[argc - 1]);
        return 1;
    }
    if (by_record)
        perform(size);
    else
        play(size);
    if (fflush(stdout) != 0 || ferror(stdout)) {
        perror("host");
        return 1;
    }
    return 0;
}
