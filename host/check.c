/* Calls every function of why.h on book P, on each starred order of document 01, on rules with a season and on a book for each refusal, carries each
 * log on from every byte, and holds what it answers against what the papers say. Numbers that are answered lie between others that must stay; after
 * a refusal nothing may have changed. */
#include <stdio.h>
#include <string.h>
#include "why.h"

#define STOOD 0x5a5a5a5a5a5a5a5aULL /* what stands in a number before a call; no answer is this */

static unsigned checked, wrong;

static void expect(int holds, const char *order, const char *what) {
    checked++;
    if (!holds) {
        wrong++;
        printf("order %s: %s is not what the papers say\n", order, what);
    }
}

/* Numbers to be answered, with one before and one after them. */
typedef struct {
    uint64_t before, number[6], after;
} Numbers;

static Numbers numbers(void) {
    Numbers n;
    for (size_t i = 0; i < 6; i++) n.number[i] = STOOD;
    n.before = n.after = STOOD;
    return n;
}

/* Whether the first `count` numbers are these and all others as they stood. */
static int are(const Numbers *n, size_t count, const uint64_t *expected) {
    int same = n->before == STOOD && n->after == STOOD;
    for (size_t i = 0; i < 6; i++) same = same && n->number[i] == (i < count ? expected[i] : STOOD);
    return same;
}

/* ---- moments */

typedef struct {
    uint16_t year;
    uint8_t month, day;
    uint16_t minute;
} Moment;

#define AT(moment) (moment).year, (moment).month, (moment).day, (moment).minute
#define COUNT(array) (sizeof(array) / sizeof *(array))

static const Moment possible[] = {{2000, 1, 1, 0}, {2000, 2, 29, 1}, {2024, 2, 29, 719}, {2026, 12, 31, 1438}, {2099, 12, 31, 1439}};

static const Moment impossible[] = {
    {0, 0, 0, 0}, {0, 1, 1, 0}, {1999, 12, 31, 0}, {2100, 1, 1, 0}, {65535, 1, 1, 0}, {2256, 1, 1, 0}, {2024, 0, 1, 0}, {2024, 13, 1, 0},
    {2024, 255, 1, 0}, {2024, 1, 0, 0}, {2024, 1, 32, 0}, {2024, 2, 30, 0}, {2023, 2, 29, 0}, {2024, 3, 32, 0}, {2024, 4, 31, 0}, {2024, 5, 32, 0},
    {2024, 6, 31, 0}, {2024, 7, 32, 0}, {2024, 8, 32, 0}, {2024, 9, 31, 0}, {2024, 10, 32, 0}, {2024, 11, 31, 0}, {2024, 12, 32, 0},
    {2024, 12, 255, 0}, {2098, 2, 29, 0}, {2024, 1, 1, 1440}, {2024, 1, 1, 1696}, {2024, 1, 1, 65535},
};

/* ---- an order and what it comes to */

#define BYTES(text) (const uint8_t *)(text), sizeof(text) - 1
#define CS(choice, yes, no) "CS" choice "\0" yes "\0" no /* costs under 256 */
#define CS1 CS("\1", "\5", "\11")  /* 5 for yes and 9 for no */

typedef struct {
    const char *name;
    const uint8_t *book;
    size_t length;
    Moment at;            /* when it is ordered; year 0 where that does not matter: then it is ordered at every one of `possible` */
    uint64_t refused;     /* what every call but the readers returns, with a buffer that is long enough */
    uint64_t read;        /* what the readers return */
    uint64_t counts[3];   /* V, U, R */
    uint64_t facts[2];
    uint64_t rule[2];     /* the masks of the last rule */
    uint16_t window[9];   /* its WN record */
    uint64_t cost[2];     /* the costs of the last choice */
    uint64_t model;
    uint64_t forced[2];
    int64_t goal;         /* the first step; 0 for none */
    uint64_t step[5];     /* its reasons, its new literals, its cost */
    const uint8_t *log;
    size_t log_length;
    uint64_t sums[2];     /* steps and total */
} Order;

/* Book d on 29 February 2024, a Thursday, from 9 to 18 hours. */
#define THURSDAY .book = BYTES("HD\1\1\1" CS1 "RL\1\1" "WN\7\350\2\35\7\350\3\1\10\2\34\4\70" "EN"), .counts = {1, 1, 1}, .rule = {1, 0}, \
    .window = {2024, 2, 29, 2024, 3, 1, 8, 540, 1080}, .cost = {5, 9}
/* Book e, its second rule on Saturdays and Sundays of December 2026 only. */
#define WEEKENDS .book = BYTES("HD\1\1\2" CS1 "RL\1\1" "RL\1\377" "WN\7\352\14\1\7\353\1\1\140\0\0\5\240" "EN"), .counts = {1, 1, 2}, \
    .rule = {0, 1}, .window = {2026, 12, 1, 2027, 1, 1, 96, 0, 1440}, .cost = {5, 9}
/* What order d is answered, and what it is answered without its rule. */
#define AS_D .model = 1, .forced = {1, 0}, .goal = 1, .step = {0, 0, 1, 0, 9}, .log = BYTES("ST\1\0\1\1\0\11" "OK\1\0\0\0\11"), .sums = {1, 9}
#define AS_NO_RULE .log = BYTES("OK\0\0\0\0\0")

static const Order orders[] = {
    {.name = "a", .book = BYTES(""), .refused = 1, .read = 1},
    {.name = "b", .book = BYTES("HD\0\0\0EN"), .log = BYTES("OK\0\0\0\0\0")},
    {.name = "c (P)",
     .book = BYTES("HD\5\4\3" CS("\1", "\5", "\11") CS("\2", "\2", "\3") CS("\3", "\4", "\1") CS("\4", "\7", "\6") "RL\2\377\5"
                   "RL\2\2\373" "RL\3\376\375\4" "FA\1" "FA\3" "EN"),
     .counts = {5, 4, 3}, .facts = {5, 0}, .rule = {8, 6}, .cost = {7, 6}, .model = 31, .forced = {15, 0}, .goal = 2, .step = {1, 0, 2, 0, 8},
     .log = BYTES("ST\2\1\1\1\2\0\10" "ST\4\2\2\3\1\4\0\14" "OK\2\0\0\0\24"), .sums = {2, 20}},
    {.name = "d", .book = BYTES("HD\1\1\1" CS1 "RL\1\1" "EN"), .counts = {1, 1, 1}, .rule = {1, 0}, .cost = {5, 9}, AS_D},
    {.name = "e", .book = BYTES("HD\1\1\2" CS1 "RL\1\1" "RL\1\377" "EN"), .refused = 9, .counts = {1, 1, 2}, .rule = {0, 1}, .cost = {5, 9}},
    {.name = "f", .book = BYTES("HD\1\1\1" CS1 "RL\1\377" "FA\1" "EN"), .refused = 9, .counts = {1, 1, 1}, .facts = {1, 0}, .rule = {0, 1}, .cost = {5, 9}},
    {.name = "g", .book = BYTES("HD\2\1\2" CS1 "RL\2\377\2" "RL\2\377\376" "EN"), .counts = {2, 1, 2}, .rule = {0, 3}, .cost = {5, 9}, .forced = {0, 1},
     .goal = -1, .step = {0, 0, 0, 1, 5}, .log = BYTES("ST\377\0\1\377\0\5" "OK\1\0\0\0\5"), .sums = {1, 5}},
    {.name = "h", .book = BYTES("HD\1\1\0" CS1 "FA\1" "EN"), .counts = {1, 1, 0}, .facts = {1, 0}, .cost = {5, 9}, .model = 1, .forced = {1, 0},
     .log = BYTES("OK\0\0\0\0\0")},
    {.name = "i", .book = BYTES("HD\3\3\2" CS("\1", "\1", "\1") CS("\2", "\1", "\1") CS("\3", "\1", "\1") "RL\2\377\2" "RL\2\377\3" "FA\1" "EN"),
     .counts = {3, 3, 2}, .facts = {1, 0}, .rule = {4, 1}, .cost = {1, 1}, .model = 7, .forced = {7, 0}, .goal = 2, .step = {1, 0, 6, 0, 2},
     .log = BYTES("ST\2\1\1\2\2\3\0\2" "OK\1\0\0\0\2"), .sums = {1, 2}},
    {.name = "j", .book = BYTES("HD\1\1\1" CS1 "RL\1\200" "EN"), .refused = 6 + 12 * 256, .read = 6 + 12 * 256},
    {.name = "count 0", .book = BYTES("HD\0\0\1RL\0" "EN"), .refused = 9, .counts = {0, 0, 1}},
    {.name = "Thursday, first minute", THURSDAY, .at = {2024, 2, 29, 540}, AS_D},
    {.name = "Thursday, last minute", THURSDAY, .at = {2024, 2, 29, 1079}, AS_D},
    {.name = "Thursday, too early", THURSDAY, .at = {2024, 2, 29, 539}, AS_NO_RULE},
    {.name = "Thursday, too late", THURSDAY, .at = {2024, 2, 29, 1080}, AS_NO_RULE},
    {.name = "Wednesday before", THURSDAY, .at = {2024, 2, 28, 600}, AS_NO_RULE},
    {.name = "Friday after", THURSDAY, .at = {2024, 3, 1, 600}, AS_NO_RULE},
    {.name = "Monday in December", WEEKENDS, .at = {2026, 12, 7, 600}, AS_D},
    {.name = "Friday in December", WEEKENDS, .at = {2026, 12, 4, 1439}, AS_D},
    {.name = "Saturday in December", WEEKENDS, .at = {2026, 12, 5, 0}, .refused = 9},
    {.name = "Sunday in December", WEEKENDS, .at = {2026, 12, 27, 1439}, .refused = 9},
    {.name = "Sunday in November", WEEKENDS, .at = {2026, 11, 29, 600}, AS_D},
    {.name = "Saturday in January", WEEKENDS, .at = {2027, 1, 2, 600}, AS_D},
};

/* ---- the calls on an order */

static void check_readers(const Order *o) {
    static uint64_t yes[WHY_MAX_RULES + 1], no[WHY_MAX_RULES + 1];
    static uint16_t windows[WHY_MAX_RULES + 1][9], costs[WHY_MAX_CHOICES + 1][2];
    uint64_t expected[5] = {o->counts[0], o->counts[1], o->counts[2], o->facts[0], o->facts[1]};
    Numbers n = numbers();
    uint64_t *at = n.number;
    int done = o->read == WHY_DONE, rest = 1, window = 1;
    for (int i = 0; i <= WHY_MAX_RULES; i++) yes[i] = no[i] = STOOD;
    memset(windows, 0x5a, sizeof windows);
    memset(costs, 0x5a, sizeof costs);
    expect(why_read_book(o->book, o->length, at, at + 1, at + 2, yes, no, windows, at + 3, at + 4) == o->read, o->name, "what why_read_book returns");
    expect(are(&n, done ? 5 : 0, expected), o->name, "a number of why_read_book");
    for (uint64_t i = 0; i <= WHY_MAX_RULES; i++) {
        int last = i + 1 == o->counts[2], beyond = i >= o->counts[2];
        uint64_t stays = !done || i == WHY_MAX_RULES ? STOOD : 0;
        if (last) rest = rest && yes[i] == o->rule[0] && no[i] == o->rule[1];
        if (beyond) rest = rest && yes[i] == stays && no[i] == stays;
        for (int field = 0; field < 9; field++) {
            if (last) window = window && windows[i][field] == o->window[field];
            if (beyond) window = window && windows[i][field] == (uint16_t)stays;
        }
    }
    expect(rest, o->name, "a rule of why_read_book");
    expect(window, o->name, "a window of why_read_book");
    expect(why_read_costs(o->book, o->length, costs) == o->read, o->name, "what why_read_costs returns");
    for (uint64_t v = 0; v <= WHY_MAX_CHOICES; v++)
        for (int column = 0; column < 2; column++) {
            uint16_t stays = !done || v == WHY_MAX_CHOICES ? 0x5a5a : 0;
            if (v + 1 == o->counts[1]) rest = rest && costs[v][column] == o->cost[column];
            if (v >= o->counts[1]) rest = rest && costs[v][column] == stays;
        }
    expect(rest, o->name, "a cost of why_read_costs");
}

static void check_answers(const Order *o, Moment when) {
    Numbers m = numbers(), c = numbers(), s = numbers();
    int64_t goal = 77;
    int done = o->refused == WHY_DONE;
    expect(why_model(o->book, o->length, AT(when), m.number) == o->refused, o->name, "what why_model returns");
    expect(are(&m, done, &o->model), o->name, "the model");
    expect(why_consequence(o->book, o->length, AT(when), c.number, c.number + 1) == o->refused, o->name, "what why_consequence returns");
    expect(are(&c, done ? 2 : 0, o->forced), o->name, "the consequence");
    uint64_t *at = s.number;
    uint64_t r = why_next_step(o->book, o->length, AT(when), o->facts[0], o->facts[1], &goal, at, at + 1, at + 2, at + 3, at + 4);
    expect(r == o->refused, o->name, "what why_next_step returns");
    expect(goal == (done ? o->goal : 77) && are(&s, done ? 5 : 0, o->step), o->name, "the step");
    if (done) {
        s = numbers();
        r = why_next_step(o->book, o->length, AT(when), o->forced[0], o->forced[1], &goal, at, at + 1, at + 2, at + 3, at + 4);
        expect(r == WHY_DONE && goal == 0 && are(&s, 5, (uint64_t[5]){0}), o->name, "nothing left from the consequence");
    }
    s = numbers();
    goal = 77;
    r = why_next_step(o->book, o->length, AT(when), o->forced[0], ~o->forced[1], &goal, at, at + 1, at + 2, at + 3, at + 4);
    expect(r == (done ? WHY_WRONG_KNOWN_SET : o->refused), o->name, "what a known set that is not between is answered");
    expect(goal == 77 && are(&s, 0, NULL), o->name, "a number of why_next_step after a refusal");
}

/* What a log in a buffer of so many bytes is refused with: a buffer too short comes after a wrong moment and a wrong book. */
static uint64_t log_refused(const Order *o, size_t room) {
    int earlier = o->refused == WHY_WRONG_TIME || o->read != WHY_DONE;
    return !earlier && room < WHY_MAX_LOG ? WHY_SHORT_BUFFER : o->refused;
}

/* The log in a buffer of so many bytes, between others that must stay. */
static void check_log(const Order *o, Moment when, size_t room) {
    static uint8_t lent[WHY_MAX_LOG + 66];
    Numbers n = numbers();
    uint64_t expected[3] = {o->log_length, o->sums[0], o->sums[1]};
    uint64_t returned = log_refused(o, room);
    int done = returned == WHY_DONE, rest = 1;
    size_t written = done ? o->log_length : 0;
    for (size_t i = 0; i < sizeof lent; i++) lent[i] = (uint8_t)(i * 37);
    uint64_t r = why_log(o->book, o->length, AT(when), lent + 8, room, n.number, n.number + 1, n.number + 2);
    expect(r == returned, o->name, "what why_log returns");
    expect(are(&n, done ? 3 : 0, expected), o->name, "a number of why_log");
    expect(!written || memcmp(lent + 8, o->log, written) == 0, o->name, "the log");
    for (size_t i = 0; i < sizeof lent; i++) rest = rest && ((i >= 8 && i < 8 + written) || lent[i] == (uint8_t)(i * 37));
    expect(rest, o->name, "a byte of the buffer beside the log");
}

/* ---- restarts */

#define JUNK 6                /* kinds of bytes behind a break */
#define NO_PLACE ((size_t)-1) /* no byte is changed */

/* Byte i of a buffer, where it is not one of those that are as written: 0, 255, bytes that differ from one to the next, the log's own one place off,
 * the log's own all changed, and the log as it is, which may have been written further than is known. */
static uint8_t junk(const Order *o, int kind, size_t i) {
    uint8_t own = i < o->log_length ? o->log[i] : 0x77;
    uint8_t next = i + 1 < o->log_length ? o->log[i + 1] : 0x77;
    uint8_t kinds[JUNK] = {0, 255, (uint8_t)(i * 37 + 11), next, (uint8_t)(own ^ 0x81), own};
    return kinds[kind];
}

/* The log carried on in a buffer of so many bytes, the first of them as written, one byte or none changed. Where the number is more than the log has,
 * the bytes after the log are junk. What is answered lies between bytes and numbers that must stay; a refusal changes none. */
static void check_restart(const Order *o, Moment when, size_t room, size_t written, int kind, size_t changed) {
    static uint8_t lent[WHY_MAX_LOG + 66], expected[sizeof lent];
    Numbers n = numbers();
    uint64_t answers[3] = {o->log_length, o->sums[0], o->sums[1]};
    uint64_t returned = log_refused(o, room);
    if (returned == WHY_DONE && (written > o->log_length || changed < written)) returned = WHY_NOT_BEGUN;
    int done = returned == WHY_DONE;
    memset(lent, 0x5a, sizeof lent);
    for (size_t i = 0; i < room; i++) lent[8 + i] = i < written && i < o->log_length ? o->log[i] : junk(o, kind, i);
    if (changed < room) lent[8 + changed] ^= (uint8_t)(1 + 42 * kind);
    memcpy(expected, lent, sizeof lent);
    if (done && o->log_length) memcpy(expected + 8, o->log, o->log_length);
    uint64_t r = why_resume_log(o->book, o->length, AT(when), lent + 8, room, written, n.number, n.number + 1, n.number + 2);
    expect(r == returned, o->name, "what why_resume_log returns");
    expect(are(&n, done ? 3 : 0, answers), o->name, "a number of why_resume_log");
    expect(memcmp(lent, expected, sizeof lent) == 0, o->name, "a byte of the buffer after why_resume_log");
}

/* Numbers that are more than the log has or than the buffer, some that would be right if they were cut to fewer bits, in a buffer with the whole log;
 * 14, the book's refusals, 8 and 9 come before 15. */
static void check_numbers(const Order *o, Moment when, size_t room) {
    size_t size = o->log_length, most = SIZE_MAX;
    size_t numbers[] = {0, 1, size, size + 1, room - 1, room, room + 1, size + 0x100, size + 0x10000, size + UINT32_MAX + 1, size + most / 2 + 1,
                        most - 1, most};
    for (size_t i = 0; i < COUNT(numbers); i++)
        for (int kind = 0; kind < JUNK; kind++) check_restart(o, when, room, numbers[i], kind, NO_PLACE);
}

/* A log broken at every byte, with every kind of junk behind; then also one byte before the break, or the one at it, is another than was written. */
static void check_restarts(const Order *o, Moment when) {
    size_t rooms[] = {1, WHY_MAX_LOG - 1, WHY_MAX_LOG, WHY_MAX_LOG + 1, WHY_MAX_LOG + 50};
    for (size_t i = 0; i < COUNT(rooms); i++) check_numbers(o, when, rooms[i]);
    for (size_t written = 0; written <= o->log_length; written++)
        for (int kind = 0; kind < JUNK; kind++) {
            check_restart(o, when, WHY_MAX_LOG, written, kind, NO_PLACE);
            for (size_t changed = 0; changed <= written; changed++) check_restart(o, when, WHY_MAX_LOG, written, kind, changed);
        }
}

static void check_moment(const Order *o, Moment when) {
    check_answers(o, when);
    check_log(o, when, 0);
    for (size_t room = WHY_MAX_LOG - 50; room <= WHY_MAX_LOG + 50; room++) check_log(o, when, room);
    check_restarts(o, when);
}

/* An order when it is made, and when it cannot be made: then the calls do not come to its book, be it good or not. */
static void check_order(const Order *o) {
    check_readers(o);
    if (o->at.year) check_moment(o, o->at);
    for (size_t i = 0; i < COUNT(possible) && !o->at.year; i++) check_moment(o, possible[i]);
    Order never = *o;
    never.refused = WHY_WRONG_TIME;
    for (size_t i = 0; i < COUNT(impossible); i++) {
        check_answers(&never, impossible[i]);
        check_log(&never, impossible[i], 0);
        check_log(&never, impossible[i], WHY_MAX_LOG);
        check_restart(&never, impossible[i], WHY_MAX_LOG, o->log_length, 0, NO_PLACE);
        check_restart(&never, impossible[i], 0, SIZE_MAX, 0, NO_PLACE);
    }
}

/* ---- windows */

/* Writes a WN record. */
static size_t put_window(uint8_t *at, const uint16_t window[9]) {
    static const int bytes[9] = {2, 1, 1, 2, 1, 1, 1, 2, 2};
    size_t size = 2;
    memcpy(at, "WN", 2);
    for (int i = 0; i < 9; i++) {
        if (bytes[i] == 2) at[size++] = (uint8_t)(window[i] >> 8);
        at[size++] = (uint8_t)window[i];
    }
    return size;
}

/* Book d, its rule and a second one like it with these windows; no second one where there is none. */
static size_t put_book(uint8_t *book, const uint16_t window[9], const uint16_t second[9]) {
    memcpy(book, "HD\1\1\1" CS1 "RL\1\1", 16);
    book[4] = second ? 2 : 1;
    size_t size = 16 + put_window(book + 16, window);
    if (second) {
        memcpy(book + size, "RL\1\1", 4);
        size += 4;
        size += put_window(book + size, second);
    }
    memcpy(book + size, "EN", 2);
    return size + 2;
}

typedef struct {
    const char *name;
    uint16_t window[9];
    Moment at;
    int in_force;
} Edge;

#define ALWAYS {2000, 1, 1, 2099, 12, 31, 127, 0, 1440}
#define SUMMER(weekdays) {2026, 6, 30, 2026, 9, 2, weekdays, 600, 660} /* 30 June 2026 was a Tuesday */

static const Edge edges[] = {
    {"first day of all", ALWAYS, {2000, 1, 1, 0}, 1},
    {"last day of all", ALWAYS, {2099, 12, 30, 1439}, 1},
    {"end day of all", ALWAYS, {2099, 12, 31, 0}, 0},
    {"first day", SUMMER(127), {2026, 6, 30, 600}, 1},
    {"day before", SUMMER(127), {2026, 6, 29, 600}, 0},
    {"last day", SUMMER(127), {2026, 9, 1, 659}, 1},
    {"end day", SUMMER(127), {2026, 9, 2, 659}, 0},
    {"same days a year before", SUMMER(127), {2025, 7, 31, 630}, 0},
    {"same days a year after", SUMMER(127), {2027, 7, 31, 630}, 0},
    {"month between, day outside", SUMMER(127), {2026, 7, 1, 630}, 1},
    {"month between, day beyond", SUMMER(127), {2026, 8, 31, 630}, 1},
    {"first minute", SUMMER(127), {2026, 7, 31, 600}, 1},
    {"minute before", SUMMER(127), {2026, 7, 31, 599}, 0},
    {"last minute", SUMMER(127), {2026, 7, 31, 659}, 1},
    {"end minute", SUMMER(127), {2026, 7, 31, 660}, 0},
    {"Monday", SUMMER(1), {2026, 7, 6, 600}, 1},
    {"no Monday", SUMMER(126), {2026, 7, 6, 600}, 0},
    {"Tuesday", SUMMER(2), {2026, 7, 7, 600}, 1},
    {"no Tuesday", SUMMER(125), {2026, 7, 7, 600}, 0},
    {"Wednesday", SUMMER(4), {2026, 7, 8, 600}, 1},
    {"no Wednesday", SUMMER(123), {2026, 7, 8, 600}, 0},
    {"Thursday", SUMMER(8), {2026, 7, 9, 600}, 1},
    {"no Thursday", SUMMER(119), {2026, 7, 9, 600}, 0},
    {"Friday", SUMMER(16), {2026, 7, 10, 600}, 1},
    {"no Friday", SUMMER(111), {2026, 7, 10, 600}, 0},
    {"Saturday", SUMMER(32), {2026, 7, 11, 600}, 1},
    {"no Saturday", SUMMER(95), {2026, 7, 11, 600}, 0},
    {"Sunday", SUMMER(64), {2026, 7, 12, 600}, 1},
    {"no Sunday", SUMMER(63), {2026, 7, 12, 600}, 0},
    {"1 January 2000 is a Saturday", {2000, 1, 1, 2000, 1, 2, 32, 0, 1}, {2000, 1, 1, 0}, 1},
    {"29 February 2000 is a Tuesday", {2000, 2, 29, 2000, 3, 1, 2, 1439, 1440}, {2000, 2, 29, 1439}, 1},
    {"1 March 2000 is a Wednesday", {2000, 2, 29, 2000, 3, 2, 4, 0, 1440}, {2000, 3, 1, 0}, 1},
    {"1 March 2099 is a Sunday", {2099, 2, 28, 2099, 3, 2, 64, 0, 1440}, {2099, 3, 1, 0}, 1},
    {"over the year's end", {2026, 12, 31, 2027, 1, 2, 127, 0, 1440}, {2027, 1, 1, 0}, 1},
};

static void check_edge(const Edge *e) {
    static const Order in = {AS_D}, out = {AS_NO_RULE};
    uint8_t book[64];
    Order o = e->in_force ? in : out;
    o.name = e->name;
    o.book = book;
    o.length = put_book(book, e->window, NULL);
    o.at = e->at;
    o.counts[0] = o.counts[1] = o.counts[2] = o.rule[0] = 1;
    o.cost[0] = 5;
    o.cost[1] = 9;
    memcpy(o.window, e->window, sizeof o.window);
    check_order(&o);
}

/* A refusal of the book by every call that reads one. */
static void check_refusal(const char *name, const uint8_t *book, size_t length, unsigned number, uint64_t place) {
    uint64_t r = number + 256 * place;
    expect(WHY_NUMBER(r) == number && WHY_PLACE(r) == place, name, "number or place");
    check_order(&(Order){.name = name, .book = book, .length = length, .refused = r, .read = r});
}

static const struct {
    const char *name;
    uint16_t window[9];
} wrong_windows[] = {
    {"first year 1999", {1999, 12, 31, 2024, 3, 1, 127, 540, 1080}},
    {"first year 2100", {2100, 1, 1, 2100, 1, 2, 127, 540, 1080}},
    {"first year 0", {0, 1, 1, 2024, 3, 1, 127, 540, 1080}},
    {"first month 0", {2024, 0, 29, 2024, 3, 1, 127, 540, 1080}},
    {"first month 13", {2024, 13, 1, 2025, 3, 1, 127, 540, 1080}},
    {"first day 0", {2024, 2, 0, 2024, 3, 1, 127, 540, 1080}},
    {"first day 30 February", {2024, 2, 30, 2024, 3, 1, 127, 540, 1080}},
    {"first day 29 February 2023", {2023, 2, 29, 2023, 3, 1, 127, 540, 1080}},
    {"first day 31 April", {2024, 4, 31, 2024, 5, 1, 127, 540, 1080}},
    {"first day 32 December", {2024, 12, 32, 2025, 5, 1, 127, 540, 1080}},
    {"end year 2100", {2024, 2, 29, 2100, 1, 1, 127, 540, 1080}},
    {"end year 65535", {2024, 2, 29, 65535, 1, 1, 127, 540, 1080}},
    {"end month 0", {2024, 2, 29, 2025, 0, 1, 127, 540, 1080}},
    {"end month 13", {2024, 2, 29, 2024, 13, 1, 127, 540, 1080}},
    {"end day 0", {2024, 2, 29, 2024, 3, 0, 127, 540, 1080}},
    {"end day 29 February 2026", {2024, 2, 29, 2026, 2, 29, 127, 540, 1080}},
    {"end day 31 November", {2024, 2, 29, 2024, 11, 31, 127, 540, 1080}},
    {"end day the first day", {2024, 2, 29, 2024, 2, 29, 127, 540, 1080}},
    {"end day a day before", {2024, 3, 1, 2024, 2, 29, 127, 540, 1080}},
    {"end day a month before", {2024, 3, 1, 2024, 2, 2, 127, 540, 1080}},
    {"end day a year before", {2024, 3, 1, 2023, 4, 2, 127, 540, 1080}},
    {"weekdays 0", {2024, 2, 29, 2024, 3, 1, 0, 540, 1080}},
    {"weekdays 128", {2024, 2, 29, 2024, 3, 1, 128, 540, 1080}},
    {"weekdays 255", {2024, 2, 29, 2024, 3, 1, 255, 540, 1080}},
    {"first minute 1440", {2024, 2, 29, 2024, 3, 1, 127, 1440, 1440}},
    {"first minute 65535", {2024, 2, 29, 2024, 3, 1, 127, 65535, 1080}},
    {"end minute 1441", {2024, 2, 29, 2024, 3, 1, 127, 540, 1441}},
    {"end minute 65535", {2024, 2, 29, 2024, 3, 1, 127, 540, 65535}},
    {"end minute the first minute", {2024, 2, 29, 2024, 3, 1, 127, 540, 540}},
    {"end minute a minute before", {2024, 2, 29, 2024, 3, 1, 127, 540, 539}},
    {"end minute 0", {2024, 2, 29, 2024, 3, 1, 127, 0, 0}},
};

/* A wrong window after the first rule and after the second, also where the bytes break off in it or a byte follows the book. */
static void check_wrong_windows(void) {
    static const uint16_t good[9] = {2024, 2, 29, 2024, 3, 1, 127, 540, 1080};
    uint8_t book[64];
    for (size_t i = 0; i < COUNT(wrong_windows); i++) {
        const uint16_t *window = wrong_windows[i].window;
        size_t length = put_book(book, window, NULL);
        check_refusal(wrong_windows[i].name, book, length, WHY_WRONG_TIME, 16);
        book[length] = ' ';
        check_refusal(wrong_windows[i].name, book, length + 1, WHY_WRONG_TIME, 16);
        check_refusal(wrong_windows[i].name, book, 31, WHY_WRONG_TIME, 16);
        check_refusal(wrong_windows[i].name, book, 30, WHY_BYTES_MISSING, 16);
        check_refusal(wrong_windows[i].name, book, put_book(book, good, window), WHY_WRONG_TIME, 35);
        check_refusal(wrong_windows[i].name, book, put_book(book, window, window), WHY_WRONG_TIME, 16);
    }
    for (size_t left = 0; left < 15; left++) {
        put_book(book, good, good);
        check_refusal("a window that breaks off", book, 16 + left, WHY_BYTES_MISSING, 16);
        check_refusal("a second window that breaks off", book, 35 + left, WHY_BYTES_MISSING, 35);
    }
}

/* The window of rule i in the book below: no two rules have the same. */
static void number_window(int i, uint16_t window[9]) {
    int year = 2000 + i % 100, month = 1 + i % 12, day = 1 + i % 27;
    int fields[9] = {year, month, day, year, month, day + 1, 1 + i % 127, 11 * i, 11 * i + 1};
    for (int k = 0; k < 9; k++) window[k] = (uint16_t)fields[k];
}

/* The longest book, and the same with a window after every second rule only: each rule's own window must be read back. */
static void check_all_windows(int step) {
    static uint8_t book[WHY_MAX_BOOK];
    static uint64_t yes[WHY_MAX_RULES], no[WHY_MAX_RULES];
    static uint16_t windows[WHY_MAX_RULES][9];
    uint64_t variables, choices, rules, facts_yes, facts_no;
    size_t size = 5;
    int same = 1;
    memcpy(book, "HD\60\40\200", 5);
    for (int v = 1; v <= WHY_MAX_CHOICES; v++, size += 7) {
        memcpy(book + size, CS1, 7);
        book[size + 2] = (uint8_t)v;
    }
    for (int i = 0; i < WHY_MAX_RULES; i++) {
        uint16_t window[9];
        memcpy(book + size, "RL\10\1\2\3\4\5\6\7\10", 11);
        size += 11;
        number_window(i, window);
        if (i % step == 0) size += put_window(book + size, window);
    }
    for (int v = 1; v <= WHY_MAX_CHOICES; v++, size += 3) {
        memcpy(book + size, "FA", 2);
        book[size + 2] = (uint8_t)v;
    }
    memcpy(book + size, "EN", 2);
    size += 2;
    expect(step != 1 || size == WHY_MAX_BOOK, "longest", "the length of the book");
    memset(windows, 0x5a, sizeof windows);
    uint64_t r = why_read_book(book, size, &variables, &choices, &rules, yes, no, windows, &facts_yes, &facts_no);
    expect(r == WHY_DONE && rules == WHY_MAX_RULES, "longest", "what why_read_book returns");
    for (int i = 0; i < WHY_MAX_RULES; i++) {
        uint16_t window[9] = {0};
        if (i % step == 0) number_window(i, window);
        same = same && memcmp(windows[i], window, sizeof window) == 0 && yes[i] == 255 && no[i] == 0;
    }
    expect(same, "longest", "a window or a rule of why_read_book");
}

/* ---- texts */

static void check_text(const char *name, const uint8_t *text, size_t length, size_t room, uint64_t returned, const uint8_t *book, size_t book_length) {
    static uint8_t lent[WHY_MAX_WITHOUT_FACTS + 66];
    Numbers n = numbers();
    uint64_t size = book_length;
    int rest = 1;
    memset(lent, 0x5a, sizeof lent);
    expect(why_read_dimacs(text, length, lent + 8, room, n.number) == returned, name, "what why_read_dimacs returns");
    expect(are(&n, returned == WHY_DONE, &size), name, "the length of the book");
    expect(memcmp(lent + 8, book, book_length) == 0, name, "the book");
    for (size_t i = 0; i < sizeof lent; i++) rest = rest && ((i >= 8 && i < 8 + book_length) || lent[i] == 0x5a);
    expect(rest, name, "a byte of the buffer beside the book");
}

#define WN "WN\7\350\2\35\7\350\3\1\10\2\34\4\70" /* a good one */

int main(void) {
    for (size_t i = 0; i < COUNT(orders); i++) check_order(orders + i);
    for (size_t i = 0; i < COUNT(edges); i++) check_edge(edges + i);
    check_refusal("1", BYTES("HD\1\1\1" CS1 "RL\2\1"), WHY_BYTES_MISSING, 12);
    check_refusal("2", BYTES("HD\0\0\0FX"), WHY_WRONG_MARK, 5);
    check_refusal("2, a second WN", BYTES("HD\1\1\1" CS1 "RL\1\1" WN WN "EN"), WHY_WRONG_MARK, 31);
    check_refusal("2, a second WN, wrong", BYTES("HD\1\1\1" CS1 "RL\1\1" WN "WN"), WHY_WRONG_MARK, 31);
    check_refusal("2, WN before any rule", BYTES("HD\1\1\1" CS1 WN "RL\1\1" "EN"), WHY_WRONG_MARK, 12);
    check_refusal("2, WN where no rule is", BYTES("HD\1\1\0" CS1 WN "EN"), WHY_WRONG_MARK, 12);
    check_refusal("2, WN before the costs", BYTES("HD\1\1\1" WN CS1 "RL\1\1" "EN"), WHY_WRONG_MARK, 5);
    check_refusal("2, WN after a fact", BYTES("HD\1\1\1" CS1 "RL\1\1" "FA\1" WN "EN"), WHY_WRONG_MARK, 19);
    check_refusal("7, WN after the end", BYTES("HD\1\1\1" CS1 "RL\1\1" "EN" WN), WHY_BYTE_AFTER_END, 18);
    check_refusal("2, EN for a rule after WN", BYTES("HD\1\1\2" CS1 "RL\1\1" WN "EN"), WHY_WRONG_MARK, 31);
    check_refusal("3", BYTES("HD\61\0\0EN"), WHY_WRONG_HEADER, 0);
    check_refusal("4", BYTES("HD\1\1\0CS\1\0\0\0\11EN"), WHY_WRONG_COST, 5);
    check_refusal("5", BYTES("HD\1\1\1" CS1 "RL\11"), WHY_WRONG_COUNT, 12);
    check_refusal("6", BYTES("HD\1\1\0" CS1 "FA\2" "EN"), WHY_WRONG_LITERAL, 12);
    check_refusal("7", BYTES("HD\0\0\0EN "), WHY_BYTE_AFTER_END, 7);
    check_wrong_windows();
    check_all_windows(1);
    check_all_windows(2);
    size_t room = WHY_MAX_WITHOUT_FACTS;
    check_text("text", BYTES("c\np cnf 1 2\n-1 0 1 -1 0"), room, WHY_DONE, BYTES("HD\1\1\1" "CS\1\0\1\0\1" "RL\1\377" "EN"));
    check_text("8", BYTES("p cnf 0 0"), room - 1, WHY_SHORT_BUFFER, BYTES(""));
    check_text("12", BYTES("p cnf 1 1 2 0"), room, WHY_NOT_DIMACS + 10 * 256, BYTES(""));
    check_text("13", BYTES("p cnf 49 1"), room + 50, WHY_TOO_LARGE_DIMACS + 6 * 256, BYTES(""));
    printf("%u checks, %u wrong\n", checked, wrong);
    return wrong != 0;
}
