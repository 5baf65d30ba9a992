/*
 * Long sessions, made with a fixed seed: each record is performed on a table as it is added, so that the next one can use its handle.
 */
#ifndef SESSIONS_H
#define SESSIONS_H

#include "bench.h"

#define TABLE BENCH_TABLE_NUMBERS(BENCH_CAPACITY_MOST)

struct session {
    uint8_t bytes[BENCH_SESSION_MOST];
    size_t size;
    unsigned records;
    uint16_t table[TABLE];
    uint16_t answer[BENCH_ANSWER_NUMBERS];
};

/* What a session may still be given. */
enum command { PARSE, STORE_FOUND, STORE_NEW, LIST_FOUND, LIST_NEW, START, DELIVER, COMMANDS };

unsigned used_entries(const struct session *s);

void make_honest(struct session *s);
void make_attack(struct session *s);
void make_mixed(struct session *s);
void make_lists(struct session *s);

/* A table of so many used entries, at whose end stands what the commands ask for. */
void make_filled(struct session *s, unsigned entries);

/* Adds a command so many times after make_filled. What is new is another each time. */
void add_commands(struct session *s, enum command command, unsigned times);

#endif
