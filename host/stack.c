/*
 * stack NAME..: measures how much stack the two calls take on the sessions NAME.session, in bytes below the caller's frame.
 *
 * A thread paints its own stack below itself, makes one call, and looks how far down the paint is gone, with two paints in turn.
 * Link it by `-z now`, so that the linker has no work left to do within a call. The status is 0 if neither call takes more than
 * bench.h says, else 1. For x86-64 alone, as the archive is.
 */
#define _DEFAULT_SOURCE
#include "bench.h"
#include "lent.h"

#include <pthread.h>

#define STACK ((size_t)1 << 17)
#define NEAR 256 /* bytes below the caller's frame that stay unpainted, since the painting itself takes some */
#define TABLE BENCH_TABLE_NUMBERS(BENCH_CAPACITY_MOST)

typedef uint32_t play_call(const uint8_t *, size_t, uint8_t *, size_t);
typedef uint32_t perform_call(const uint8_t *, size_t, uint16_t *, size_t, uint16_t *, size_t);

static uint8_t *stack, *caller; /* the lowest byte of the thread's stack, and the end of the frame that makes a call */
static uint8_t output[BENCH_LINES_MOST];
static uint16_t table[TABLE], answer[BENCH_ANSWER_NUMBERS];
static struct bytes session;
static size_t play_most, perform_most;

/* Called in a call's place these find where the caller's frame ends: above the frame pointer and the return address. */
static uint32_t probe_play(const uint8_t *s, size_t n, uint8_t *o, size_t m)
{
    (void)s, (void)n, (void)o, (void)m;
    caller = (uint8_t *)__builtin_frame_address(0) + 16;
    return 0;
}

static uint32_t probe_perform(const uint8_t *r, size_t n, uint16_t *t, size_t k, uint16_t *a, size_t m)
{
    (void)r, (void)n, (void)t, (void)k, (void)a, (void)m;
    caller = (uint8_t *)__builtin_frame_address(0) + 16;
    return 0;
}

static void paint(uint8_t colour)
{
    volatile uint8_t *at;

    for (at = stack; at < caller - NEAR; at++)
        *at = colour;
}

static void look(uint8_t colour, size_t *most)
{
    const volatile uint8_t *at = stack;

    while (at < caller - NEAR && *at == colour)
        at++;
    if (*most < (size_t)(caller - at))
        *most = (size_t)(caller - at);
}

static void measure_play(uint8_t colour)
{
    play_call *const volatile calls[] = {probe_play, bench_play};
    int i;

    for (i = 0; i < 2; i++) {
        if (i == 1)
            paint(colour);
        calls[i](session.at, session.size, output, sizeof output);
    }
    look(colour, &play_most);
}

static void measure_perform(const uint8_t *record, size_t size, uint8_t colour)
{
    perform_call *const volatile calls[] = {probe_perform, bench_perform};
    int i;

    for (i = 0; i < 2; i++) {
        if (i == 1)
            paint(colour);
        calls[i](record, size, table, TABLE, answer, BENCH_ANSWER_NUMBERS);
    }
    look(colour, &perform_most);
}

static void *measure(void *colour)
{
    size_t at, size;

    measure_play(*(uint8_t *)colour);
    for (at = 1; at + 2 < session.size; at += size) {
        size = 2 + 256 * (size_t)session.at[at] + session.at[at + 1];
        if (size > session.size - at)
            break;
        measure_perform(session.at + at, size, *(uint8_t *)colour);
    }
    return NULL;
}

static void run_on_own_stack(uint8_t colour)
{
    pthread_attr_t how;
    pthread_t thread;

    if (pthread_attr_init(&how) != 0 || pthread_attr_setstack(&how, stack, STACK) != 0 ||
        pthread_create(&thread, &how, measure, &colour) != 0 || pthread_join(thread, NULL) != 0) {
        fprintf(stderr, "stack: no thread with a stack of its own\n");
        exit(2);
    }
    pthread_attr_destroy(&how);
}

int main(int argc, char **argv)
{
    int i;

    stack = (uint8_t *)mmap(NULL, STACK, PROT_READ | PROT_WRITE, MAP_PRIVATE | MAP_ANONYMOUS, -1, 0);
    if (stack == MAP_FAILED) {
        perror("stack");
        return 2;
    }
    for (i = 1; i < argc; i++) {
        session = read_file(argv[i], ".session");
        run_on_own_stack(0x3C);
        run_on_own_stack(0xC3);
        free(session.at);
    }
    printf("stack: %lu bytes for bench_play, %lu for bench_perform, over %d sessions\n", (unsigned long)play_most,
           (unsigned long)perform_most, argc - 1);
    return play_most > BENCH_PLAY_STACK || perform_most > BENCH_PERFORM_STACK;
}
