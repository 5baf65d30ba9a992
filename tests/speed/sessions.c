/* Makes the sessions that `tools/speed` plays. What each is like is said beside the function that makes it. */
#include "sessions.h"

#include <stdio.h>
#include <stdlib.h>

enum kind {
    KIND_SET_UP,
    KIND_START,
    KIND_DELIVER,
    KIND_STORE,
    KIND_NONCE,
    KIND_LIST,
    KIND_PROJECT,
    KIND_ENCRYPT,
    KIND_DECRYPT,
    KIND_PARSE
};
enum type { DATA = 1, NONCE, LIST, CIPHERTEXT, SECRET_KEY, PUBLIC_KEY };

static uint64_t seed;

/* splitmix64 */
static unsigned below(unsigned bound)
{
    uint64_t mixed = seed += UINT64_C(0x9E3779B97F4A7C15);

    mixed = (mixed ^ (mixed >> 30)) * UINT64_C(0xBF58476D1CE4E5B9);
    mixed = (mixed ^ (mixed >> 27)) * UINT64_C(0x94D049BB133111EB);
    return (unsigned)((mixed ^ (mixed >> 31)) % bound);
}

static uint16_t between(unsigned first, unsigned last) { return (uint16_t)(first + below(last - first + 1)); }

/* One of 1 to n, but not this one. */
static uint16_t other_than(unsigned p, unsigned n)
{
    unsigned q = between(1, n - 1);

    return (uint16_t)(q < p ? q : q + 1);
}

/* ---- a record more */

/* Adds a record and performs it. The result is its handle if it gave one, that of what was sent, and else 0. */
static uint16_t add(struct session *s, enum kind kind, unsigned count, uint16_t a, uint16_t b, uint16_t c, uint16_t d)
{
    const uint16_t numbers[] = {a, b, c, d};
    uint8_t *record = s->bytes + s->size;
    size_t size = 3 + 2 * count;
    unsigned i;

    if (s->size + size > sizeof s->bytes) {
        fprintf(stderr, "speed: a session is too long\n");
        exit(1);
    }
    record[0] = 0;
    record[1] = (uint8_t)(size - 2);
    record[2] = (uint8_t)kind;
    for (i = 0; i < count; i++) {
        record[3 + 2 * i] = (uint8_t)(numbers[i] >> 8);
        record[4 + 2 * i] = (uint8_t)numbers[i];
    }
    if (bench_perform(record, size, s->table, TABLE, s->answer, BENCH_ANSWER_NUMBERS) != 0) {
        fprintf(stderr, "speed: a record that is none\n");
        exit(1);
    }
    s->size += size;
    s->records++;
    return s->answer[0] == BENCH_HANDLE ? s->answer[1] : s->answer[0] == BENCH_SENT ? s->answer[3] : 0;
}

static void set_up(struct session *s, uint16_t n, uint16_t mask, uint16_t capacity)
{
    s->bytes[0] = BENCH_VERSION;
    s->size = 1;
    s->records = 0;
    seed = 1;
    add(s, KIND_SET_UP, 3, n, mask, capacity, 0);
}

static uint16_t start(struct session *s, uint16_t u, uint16_t v) { return add(s, KIND_START, 2, u, v, 0, 0); }
static uint16_t deliver(struct session *s, uint16_t from, uint16_t to, uint16_t h) { return add(s, KIND_DELIVER, 3, from, to, h, 0); }
static uint16_t store(struct session *s, uint16_t value) { return add(s, KIND_STORE, 1, value, 0, 0, 0); }
static uint16_t nonce(struct session *s) { return add(s, KIND_NONCE, 0, 0, 0, 0, 0); }
static uint16_t list(struct session *s, unsigned n, const uint16_t *h) { return add(s, KIND_LIST, n, h[0], h[1], h[2], h[3]); }
static uint16_t project(struct session *s, uint16_t h, uint16_t place) { return add(s, KIND_PROJECT, 2, h, place, 0, 0); }
static uint16_t encrypt(struct session *s, uint16_t key, uint16_t l) { return add(s, KIND_ENCRYPT, 2, key, l, 0, 0); }
static uint16_t decrypt(struct session *s, uint16_t key, uint16_t c) { return add(s, KIND_DECRYPT, 2, key, c, 0, 0); }
static void parse(struct session *s, uint16_t h) { add(s, KIND_PARSE, 1, h, 0, 0, 0); }

static uint16_t list_of_one(struct session *s, uint16_t h)
{
    const uint16_t handles[4] = {h, 0, 0, 0};

    return list(s, 1, handles);
}

static uint16_t list_of_two(struct session *s, uint16_t g, uint16_t h)
{
    const uint16_t handles[4] = {g, h, 0, 0};

    return list(s, 2, handles);
}

unsigned used_entries(const struct session *s) { return s->table[4]; }

/* ---- honest runs */

struct message {
    uint16_t from, to, handle;
};

/* Delivers a message as addressed. What answers it goes to the wire. */
static void pass_on(struct session *s, struct message *wire, unsigned *sent, struct message m)
{
    uint16_t handle = deliver(s, m.from, m.to, m.handle);

    if (handle != 0)
        wire[(*sent)++] = (struct message){m.to, m.from, handle};
}

/* Eight honest participants. Runs from the opening to the acceptance until no entry is left; then, for as many records again,
   openings that find no room, and deliveries of what was sent before. */
void make_honest(struct session *s)
{
    struct message wire[BENCH_CAPACITY_MOST];
    unsigned sent = 0, until_full = 0;

    set_up(s, 8, 255, 512);
    while (until_full == 0 || s->records < 2 * until_full) {
        uint16_t u = between(1, 8), v = other_than(u, 8), handle = start(s, u, v);
        unsigned i;

        if (handle != 0)
            wire[sent++] = (struct message){u, v, handle};
        for (i = 0; i < 3; i++)
            pass_on(s, wire, &sent, until_full == 0 ? wire[sent - 1] : wire[below(sent)]);
        if (until_full == 0 && used_entries(s) > 512 - 4)
            until_full = s->records;
    }
}

/* ---- Lowe's exchange */

struct exchange {
    uint16_t a, b, opening, sealed, answer;
};

/* Eight participants, of whom the last isn't honest. One opens with it; the adversary takes the message apart, seals it for another and
   hands it on; the answer is handed back twice and dropped. Until no entry is left; then, for as many records again, the same with what
   was made before, as far as that goes. */
void make_attack(struct session *s)
{
    static const uint16_t secret = 8, last = 8; /* the adversary's handle on the secret key of participant 8 */
    struct exchange made[BENCH_CAPACITY_MOST];
    unsigned count = 0, until_full = 0;

    set_up(s, 8, 127, 512);
    while (until_full == 0 || s->records < 2 * until_full) {
        struct exchange x;
        uint16_t text, inner, sealed;

        x.a = between(1, 7);
        x.b = other_than(x.a, 7);
        x.opening = start(s, x.a, last);
        if (x.opening == 0)
            x = made[below(count)];
        text = project(s, x.opening, 1);
        inner = decrypt(s, secret, text);
        parse(s, inner);
        sealed = encrypt(s, x.b, inner);
        if (sealed == 0)
            sealed = made[below(count)].sealed;
        x.sealed = sealed;
        x.answer = deliver(s, x.a, x.b, list_of_one(s, sealed));
        if (x.answer == 0)
            x.answer = made[below(count)].answer;
        deliver(s, last, x.a, x.answer);
        deliver(s, x.b, x.a, x.answer);
        if (until_full == 0 && used_entries(s) > 512 - 11)
            until_full = s->records;
        if (until_full == 0)
            made[count++] = x;
    }
}

/* ---- a mixed session */

/* A handle of the adversary's on some entry of the type, if one is met soon. */
static uint16_t pick(const struct session *s, enum type type)
{
    uint16_t handle = 0;
    int i;

    for (i = 0; i < 40; i++) {
        const uint16_t *row = s->table + 16 * between(1, used_entries(s));

        if (row[7] != 0)
            handle = row[7];
        if (row[7] != 0 && row[0] == type)
            break;
    }
    return handle;
}

/* A list as one that is there, whoever holds it: the handles of its elements if the adversary has them all. */
static void list_again(struct session *s)
{
    const uint16_t *row = s->table + 16 * between(1, used_entries(s));
    uint16_t handles[4] = {0, 0, 0, 0};
    unsigned i, count = row[0] == LIST ? row[1] : 1;

    for (i = 0; i < count; i++)
        handles[i] = row[0] == LIST ? s->table[16 * row[2 + i] + 7] : pick(s, DATA);
    list(s, count, handles);
}

static void list_new(struct session *s)
{
    uint16_t handles[4] = {0, 0, 0, 0};
    unsigned i, count = between(1, 4);

    for (i = 0; i < count; i++)
        handles[i] = pick(s, (enum type)between(DATA, CIPHERTEXT));
    list(s, count, handles);
}

/* A command that makes entries, as a rule. */
static void make_entries(struct session *s)
{
    switch (below(6)) {
    case 0:
        start(s, between(1, 6), between(1, 8));
        break;
    case 1:
        deliver(s, between(1, 8), between(1, 6), pick(s, LIST));
        break;
    case 2:
        store(s, between(1, 200));
        break;
    case 3:
        nonce(s);
        break;
    case 4:
        encrypt(s, pick(s, PUBLIC_KEY), pick(s, LIST));
        break;
    default:
        list_new(s);
    }
}

/* A command that finds entries, takes them apart or is refused, as a rule. */
static void use_entries(struct session *s)
{
    switch (below(8)) {
    case 0:
        parse(s, between(1, s->table[5]));
        break;
    case 1:
        parse(s, pick(s, CIPHERTEXT));
        break;
    case 2:
        project(s, pick(s, LIST), between(1, 3));
        break;
    case 3:
        decrypt(s, pick(s, SECRET_KEY), pick(s, CIPHERTEXT));
        break;
    case 4:
        deliver(s, between(1, 8), between(1, 6), pick(s, LIST));
        break;
    case 5:
        store(s, between(1, 8));
        break;
    default:
        list_again(s);
    }
}

/* Eight participants, two of them not honest, and every command, so many that the file is nearly as long as one may be. An entry is made
   now and then, so that the table fills slowly. */
void make_mixed(struct session *s)
{
    set_up(s, 8, 63, 512);
    while (s->size + BENCH_RECORD_MOST <= BENCH_SESSION_MOST)
        if (below(25) == 0)
            make_entries(s);
        else
            use_entries(s);
}

/* ---- lists of four */

/* Lists of four among twenty nonces: one in four is a list at random, most often a new one, the others are there already. */
void make_lists(struct session *s)
{
    uint16_t first, handles[4];
    unsigned i;

    set_up(s, 3, 3, 512);
    first = nonce(s);
    for (i = 1; i < 20; i++)
        nonce(s);
    for (; s->records < 3000;) {
        const uint16_t *row = s->table + 16 * between(27, used_entries(s) < 27 ? 27 : used_entries(s));
        int again = used_entries(s) >= 27 && below(4) != 0;

        for (i = 0; i < 4; i++)
            handles[i] = again ? s->table[16 * row[2 + i] + 7] : between(first, first + 19u);
        list(s, 4, handles);
    }
}

/* ---- tables of a size */

static uint16_t last_datum, last_list, last_message, last_nonce;

/* Three participants, two of them honest. Data, nonces, lists of two and ciphertexts in turn; at the end an opening from 1 to 2, a datum,
   a nonce and a list of the two. No name but that of 1 is there. */
void make_filled(struct session *s, unsigned entries)
{
    uint16_t datum = 0, made = 0;
    unsigned i;

    set_up(s, 3, 3, 512);
    for (i = 0; used_entries(s) + 8 < entries; i++)
        switch (i % 4) {
        case 0:
            datum = store(s, (uint16_t)(1000 + i));
            break;
        case 1:
            made = nonce(s);
            break;
        case 2:
            made = list_of_two(s, datum, made);
            break;
        default:
            encrypt(s, 1, made);
        }
    last_message = start(s, 1, 2);
    last_datum = store(s, 999);
    last_nonce = nonce(s);
    last_list = list_of_two(s, last_datum, last_nonce);
    if (used_entries(s) != entries) {
        fprintf(stderr, "speed: a table of %u entries instead of %u\n", used_entries(s), entries);
        exit(1);
    }
}

void add_commands(struct session *s, enum command command, unsigned times)
{
    unsigned i;

    for (i = 0; i < times; i++)
        switch (command) {
        case PARSE:
            parse(s, last_list);
            break;
        case STORE_FOUND:
            store(s, 999);
            break;
        case STORE_NEW:
            store(s, (uint16_t)(2000 + i));
            break;
        case LIST_FOUND:
            list_of_two(s, last_datum, last_nonce);
            break;
        case LIST_NEW:
            list_of_two(s, last_nonce, (uint16_t)(i < 2 ? 1 + i : 2 + i)); /* handle 3 is a secret key */
            break;
        case START:
            start(s, 2, 1);
            break;
        case DELIVER:
            deliver(s, 1, 2, last_message);
            break;
        case COMMANDS:
            break;
        }
}
