/*
 * speed -c         plays every session in every way once, for callgrind to count; prints nothing
 * speed COUNTS     times them, and prints all with the counts that the file COUNTS has: lines of a name and a number of instructions
 *
 * `tools/speed` runs both. The ways: the proved calls of bench.h and the same calls of the reference (src/lib.rs). Before anything is
 * timed, all ways have to give the same lines and the same tables.
 */
#define _DEFAULT_SOURCE
#include "sessions.h"

#include <stdio.h>
#include <stdlib.h>
#include <string.h>
#include <time.h>
#include <valgrind/callgrind.h>

typedef uint32_t play_call(const uint8_t *, size_t, uint8_t *, size_t);
typedef uint32_t perform_call(const uint8_t *, size_t, uint16_t *, size_t, uint16_t *, size_t);

play_call reference_play, reference_play_tested;
perform_call reference_perform;

static const struct way {
    const char *name, *says;
    play_call *play;
    perform_call *perform;
    int against; /* the reference's way that it is compared with */
} ways[] = {
    {"proved", "proved player", bench_play, NULL, 1},
    {"reference", "reference player", reference_play, NULL, -1},
    {"reference-tested", "reference player, with the test", reference_play_tested, NULL, -1},
    {"proved-single", "proved single-record call, with the test", NULL, bench_perform, 4},
    {"reference-single", "reference single-record call, with the test", NULL, reference_perform, -1},
};

#define WAYS ((int)(sizeof ways / sizeof *ways))
#define PROVED 0
#define REFERENCE 1
#define PROVED_SINGLE 3
#define REFERENCE_SINGLE 4

static const struct kind {
    const char *name, *says;
    void (*make)(struct session *);
} kinds[] = {
    {"honest", "honest runs", make_honest},
    {"attack", "Lowe's exchange", make_attack},
    {"long", "long and mixed", make_mixed},
    {"lists", "lists of four", make_lists},
};

#define KINDS ((int)(sizeof kinds / sizeof *kinds))

static const struct growing {
    const char *name;
    unsigned times; /* how often the command is added */
} growing[COMMANDS] = {
    {"parse", 64},
    {"store, found", 64},
    {"store, new", 8},
    {"list of two, found", 64},
    {"list of two, new", 8},
    {"start", 2},
    {"deliver, first message", 2},
};

static const unsigned sizes[] = {16, 32, 64, 128, 256, 500};

#define SIZES ((int)(sizeof sizes / sizeof *sizes))

static struct session session, longer;
static uint8_t output[BENCH_LINES_MOST];
static uint16_t table[TABLE], answer[BENCH_ANSWER_NUMBERS];

/* ---- one session in one way */

static size_t size_of_record(const uint8_t *record) { return 2 + 256 * (size_t)record[0] + record[1]; }

static uint32_t run(const struct way *way, const struct session *s)
{
    size_t at;

    if (way->play != NULL)
        return way->play(s->bytes, s->size, output, sizeof output);
    memset(table, 0, sizeof table);
    for (at = 1; at < s->size; at += size_of_record(s->bytes + at))
        way->perform(s->bytes + at, size_of_record(s->bytes + at), table, TABLE, answer, BENCH_ANSWER_NUMBERS);
    return 0;
}

static void fail(const char *what, const char *where)
{
    fprintf(stderr, "speed: %s: %s\n", what, where);
    exit(1);
}

/* All ways give the same. */
static void agree(const struct session *s, const char *where)
{
    static uint8_t lines[BENCH_LINES_MOST];
    uint32_t size = run(&ways[PROVED], s);
    int i;

    memcpy(lines, output, size);
    for (i = 1; i < WAYS; i++) {
        memset(output, 0, sizeof output);
        if (ways[i].play != NULL && (run(&ways[i], s) != size || memcmp(output, lines, size) != 0))
            fail("a player prints something else", where);
        if (ways[i].perform != NULL && (run(&ways[i], s), memcmp(table, s->table, sizeof table) != 0))
            fail("a single-record call leaves another table", where);
    }
}

/* ---- counts */

static const char *counted_as(const char *what, unsigned size, const char *way)
{
    static char name[100];
    char *at;

    snprintf(name, sizeof name, "%s/%u/%s", what, size, way);
    for (at = name; *at != 0; at++)
        if (*at == ' ')
            *at = '_';
    return name;
}

static void count(const struct way *way, const struct session *s, const char *name)
{
    CALLGRIND_ZERO_STATS;
    run(way, s);
    CALLGRIND_DUMP_STATS_AT(name);
}

/* One command on the table that a session leaves. It must be one that changes nothing. */
static void count_single(const struct way *way, const struct session *s, const struct session *after, const char *name)
{
    memcpy(table, s->table, sizeof table);
    CALLGRIND_ZERO_STATS;
    way->perform(after->bytes + s->size, size_of_record(after->bytes + s->size), table, TABLE, answer, BENCH_ANSWER_NUMBERS);
    CALLGRIND_DUMP_STATS_AT(name);
}

static void lengthen(enum command command)
{
    longer = session;
    add_commands(&longer, command, growing[command].times);
}

static void count_all(void)
{
    int i, j, way;

    for (i = 0; i < KINDS; i++) {
        kinds[i].make(&session);
        for (way = 0; way < WAYS; way++)
            count(&ways[way], &session, counted_as(kinds[i].name, 0, ways[way].name));
    }
    for (i = 0; i < SIZES; i++) {
        make_filled(&session, sizes[i]);
        for (way = PROVED; way <= REFERENCE; way++)
            count(&ways[way], &session, counted_as("filled", sizes[i], ways[way].name));
        for (j = 0; j < COMMANDS; j++) {
            lengthen((enum command)j);
            for (way = PROVED; way <= REFERENCE; way++)
                count(&ways[way], &longer, counted_as(growing[j].name, sizes[i], ways[way].name));
        }
        lengthen(PARSE);
        for (way = PROVED_SINGLE; way <= REFERENCE_SINGLE; way++)
            count_single(&ways[way], &session, &longer, counted_as("tested", sizes[i], ways[way].name));
    }
}

static struct {
    char name[100];
    double instructions;
} counts[1000];
static int counted;

static void read_counts(const char *name)
{
    FILE *file = fopen(name, "r");

    if (file == NULL)
        fail("can't be read", name);
    while (counted < 1000 && fscanf(file, "%99s %lf", counts[counted].name, &counts[counted].instructions) == 2)
        counted++;
    fclose(file);
}

static double instructions(const char *name)
{
    int i;

    for (i = 0; i < counted; i++)
        if (strcmp(counts[i].name, name) == 0)
            return counts[i].instructions;
    fail("was not counted", name);
    return 0;
}

/* ---- times */

/* Nanoseconds by the clock on the wall, and by that of the processor, which stands still while other work has it. The latter is for
   what takes long, and is itself too slow for what is short. */
static double clock_at(clockid_t clock)
{
    struct timespec t;

    clock_gettime(clock, &t);
    return 1e9 * (double)t.tv_sec + (double)t.tv_nsec;
}

static double wall(void) { return clock_at(CLOCK_MONOTONIC); }
static double processor(void) { return clock_at(CLOCK_THREAD_CPUTIME_ID); }

/* The least nanoseconds of many turns, the ways taken in turn so that what disturbs them disturbs all. */
static void time_ways(const struct session *s, double *best)
{
    double began = wall();
    int way, turn;

    for (way = 0; way < WAYS; way++)
        best[way] = 1e18;
    for (turn = 0; turn < 40 || (turn < 5000 && wall() - began < 2.5e9); turn++)
        for (way = 0; way < WAYS; way++) {
            double before = processor(), took;

            run(&ways[way], s);
            took = processor() - before;
            if (took < best[way])
                best[way] = took;
        }
}

static int compare(const void *a, const void *b)
{
    double x = *(const double *)a, y = *(const double *)b;

    return (x > y) - (x < y);
}

static double median(double *some, int count)
{
    qsort(some, (size_t)count, sizeof *some, compare);
    return some[count / 2];
}

#define TURNS 4000

/* The nanoseconds that the end of a session takes a player: in each turn the whole is played, and the same bytes without the end, and of
   all differences the middle one is taken. Filling the table can take a hundred times as long as the end, so the least times of both
   would be those of two unlike fillings; what slows the machine for a while slows both of one turn. Each is first in every other turn,
   since a processor foresees branches by what it ran before. The result is 0 if the halves of the turns differ by a quarter. */
static double time_end(const struct way *way, const struct session *whole, size_t without)
{
    static double more[TURNS];
    double first, second;
    int turn, i;

    for (turn = 0; turn < TURNS; turn++) {
        double took[2];

        for (i = 0; i < 2; i++) {
            int to_end = (turn + i) % 2;
            double before = wall();

            way->play(whole->bytes, to_end ? whole->size : without, output, sizeof output);
            took[to_end] = wall() - before;
        }
        more[turn] = took[1] - took[0];
    }
    first = median(more, TURNS / 2);
    second = median(more + TURNS / 2, TURNS / 2);
    return 4 * first < 5 * second && 4 * second < 5 * first ? (first + second) / 2 : 0;
}

/* The least nanoseconds of one command on the table that a session leaves, in groups of so many. */
static double time_single(const struct way *way, const struct session *s, const struct session *after)
{
    const uint8_t *record = after->bytes + s->size;
    double best = 1e18;
    int turn, i;

    memcpy(table, s->table, sizeof table);
    for (turn = 0; turn < 300; turn++) {
        double before = wall(), took;

        for (i = 0; i < 20; i++)
            way->perform(record, size_of_record(record), table, TABLE, answer, BENCH_ANSWER_NUMBERS);
        took = (wall() - before) / 20;
        if (took < best)
            best = took;
    }
    return best;
}

/* ---- what is printed */

static void print_way(const struct kind *kind, int way, const double *best)
{
    double each = instructions(counted_as(kind->name, 0, ways[way].name));
    int against = ways[way].against;

    if (way == 0)
        printf("| %s | %u, %lu, %u ", kind->says, session.records, (unsigned long)session.size, used_entries(&session));
    else
        printf("| | ");
    printf("| %s | %.1f | %.1f ", ways[way].says, each / session.records, best[way] / session.records);
    if (against < 0)
        printf("| | |\n");
    else
        printf("| %.2f | %.2f |\n", each / instructions(counted_as(kind->name, 0, ways[against].name)), best[way] / best[against]);
    fflush(stdout);
}

static void print_sessions(void)
{
    double best[WAYS];
    int i, way;

    printf("Whole sessions, for each record; ratios are proved to reference.\n\n");
    printf("| session | records, bytes, entries at the end | way | instructions | ns | ratio of instructions | ratio of times |\n");
    printf("|---|---|---|---|---|---|---|\n");
    for (i = 0; i < KINDS; i++) {
        kinds[i].make(&session);
        agree(&session, kinds[i].name);
        time_ways(&session, best);
        for (way = 0; way < WAYS; way++)
            print_way(&kinds[i], way, best);
    }
}

/* Size, command or the single call, proved or reference, instructions or ns, of which 0 stands for none. */
static double grown[SIZES][COMMANDS + 1][2][2];

static void measure_growth(void)
{
    int i, j, way;

    for (i = 0; i < SIZES; i++) {
        make_filled(&session, sizes[i]);
        for (j = 0; j < COMMANDS; j++) {
            lengthen((enum command)j);
            agree(&longer, growing[j].name);
            for (way = PROVED; way <= REFERENCE; way++) {
                grown[i][j][way][1] = time_end(&ways[way], &longer, session.size) / growing[j].times;
                grown[i][j][way][0] = (instructions(counted_as(growing[j].name, sizes[i], ways[way].name)) -
                                       instructions(counted_as("filled", sizes[i], ways[way].name))) /
                                      growing[j].times;
            }
        }
        lengthen(PARSE);
        for (way = 0; way < 2; way++) {
            grown[i][COMMANDS][way][1] = time_single(&ways[PROVED_SINGLE + way], &session, &longer);
            grown[i][COMMANDS][way][0] = instructions(counted_as("tested", sizes[i], ways[PROVED_SINGLE + way].name));
        }
    }
}

static void print_number(double number)
{
    if (number > 0)
        printf("%.0f", number);
    else
        printf("-");
}

static void print_growth(const char *title, int what)
{
    int i, j;

    printf("\n%s, proved / reference, by used entries.\n\n| command |", title);
    for (i = 0; i < SIZES; i++)
        printf(" %u |", sizes[i]);
    printf("\n|---|");
    for (i = 0; i < SIZES; i++)
        printf("---|");
    for (j = 0; j <= COMMANDS; j++) {
        printf("\n| %s |", j < COMMANDS ? growing[j].name : "parse, with the test of the table");
        for (i = 0; i < SIZES; i++) {
            printf(" ");
            print_number(grown[i][j][PROVED][what]);
            printf(" / ");
            print_number(grown[i][j][REFERENCE][what]);
            printf(" |");
        }
    }
    printf("\n");
}

int main(int argc, char **argv)
{
    if (argc != 2) {
        fprintf(stderr, "usage: speed -c, or speed COUNTS\n");
        return 2;
    }
    if (strcmp(argv[1], "-c") == 0) {
        count_all();
        return 0;
    }
    read_counts(argv[1]);
    print_sessions();
    measure_growth();
    print_growth("Instructions of a command", 0);
    print_growth("Nanoseconds of a command", 1);
    return 0;
}
