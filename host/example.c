/* A small kiosk: reads a book from a file, shows what is filled in, the steps to it one by one, and how long the log is, and carries the log on as
 * after a restart. The moment is the one that the machine's clock shows, or the one that is typed: usage: example BOOK [YEAR MONTH DAY MINUTE]. */
#include <stdio.h>
#include <stdlib.h>
#include <string.h>
#include <time.h>
#include "why.h"

/* What the book's rules are asked for: one moment for all calls of a screen, so that no rule comes into force between two of them. */
typedef struct {
    uint16_t year;
    uint8_t month, day;
    uint16_t minute;
} Moment;

/* The local date and minute; no moment, which the engine refuses, where the machine cannot tell. */
static Moment by_the_clock(void) {
    time_t now = time(NULL);
    const struct tm *t = localtime(&now);
    if (!t || t->tm_year < 0 || t->tm_year > 199) return (Moment){0, 0, 0, 0};
    return (Moment){(uint16_t)(t->tm_year + 1900), (uint8_t)(t->tm_mon + 1), (uint8_t)t->tm_mday, (uint16_t)(t->tm_hour * 60 + t->tm_min)};
}

/* A typed number; the largest of its type, which no moment has, where it is too large, so that it is not cut to another. */
static unsigned long typed(const char *word, unsigned long largest) {
    unsigned long number = strtoul(word, NULL, 10);
    return number < largest ? number : largest;
}

static Moment as_typed(char **words) {
    return (Moment){(uint16_t)typed(words[0], UINT16_MAX), (uint8_t)typed(words[1], UINT8_MAX), (uint8_t)typed(words[2], UINT8_MAX),
                    (uint16_t)typed(words[3], UINT16_MAX)};
}

/* Says that a call was refused: 1 if it was. */
static int refused(const char *call, uint64_t r) {
    if (r != WHY_DONE)
        printf("%s: refused %u at %llu\n", call, WHY_NUMBER(r), (unsigned long long)WHY_PLACE(r));
    return r != WHY_DONE;
}

/* Prints a set of literals, rising by variable. */
static void print_literals(const char *word, uint64_t yes, uint64_t no) {
    printf("%s", word);
    for (int v = 1; v <= WHY_MAX_VARIABLES; v++) {
        if (yes >> (v - 1) & 1) printf(" %d", v);
        if (no >> (v - 1) & 1) printf(" -%d", v);
    }
}

/* Shows the steps from the given facts on: each is asked for from what is known, which then grows by what is new. */
static int show_steps(const uint8_t *book, size_t length, Moment at) {
    static uint64_t rules_yes[WHY_MAX_RULES], rules_no[WHY_MAX_RULES];
    static uint16_t windows[WHY_MAX_RULES][9];
    uint64_t variables, choices, rules, yes, no, from_yes, from_no, new_yes, new_no, cost;
    int64_t goal;
    if (refused("book", why_read_book(book, length, &variables, &choices, &rules, rules_yes, rules_no, windows, &yes, &no))) return 1;
    for (;;) {
        if (refused("step", why_next_step(book, length, at.year, at.month, at.day, at.minute, yes, no, &goal, &from_yes, &from_no, &new_yes, &new_no,
                                          &cost)))
            return 1;
        if (goal == 0) return 0; /* nothing is left */
        printf("goal %lld", (long long)goal);
        print_literals(" from", from_yes, from_no);
        print_literals(" new", new_yes, new_no);
        printf(" cost %llu\n", (unsigned long long)cost);
        yes |= new_yes;
        no |= new_no;
    }
}

/* The kiosk restarts when the first half of the log is stored: the other half is lost. The book and the moment are those of the broken call. */
static int carry_on(const uint8_t *book, size_t length, Moment at, const uint8_t *log, uint64_t log_size) {
    static uint8_t buffer[WHY_MAX_LOG];
    size_t stored = (size_t)log_size / 2;
    uint64_t size, steps, total;
    memcpy(buffer, log, stored);
    if (refused("carrying on", why_resume_log(book, length, at.year, at.month, at.day, at.minute, buffer, sizeof buffer, stored, &size, &steps,
                                              &total)))
        return 1;
    int same = size == log_size && memcmp(buffer, log, (size_t)size) == 0;
    printf("carried on from byte %zu: %s log\n", stored, same ? "the same" : "another");
    return !same;
}

int main(int count, char **words) {
    static uint8_t book[WHY_MAX_BOOK + 1], log[WHY_MAX_LOG]; /* a byte more than a book can have, so that a longer file is refused */
    FILE *file = count == 2 || count == 6 ? fopen(words[1], "rb") : NULL;
    uint64_t yes, no, size, steps, total;
    if (!file) return fprintf(stderr, "usage: example BOOK [YEAR MONTH DAY MINUTE]\n"), 2;
    Moment at = count == 6 ? as_typed(words + 2) : by_the_clock();
    size_t length = fread(book, 1, sizeof book, file);
    fclose(file);
    if (refused("consequence", why_consequence(book, length, at.year, at.month, at.day, at.minute, &yes, &no))) return 1;
    print_literals("filled in:", yes, no);
    printf("\n");
    if (show_steps(book, length, at)) return 1;
    if (refused("log", why_log(book, length, at.year, at.month, at.day, at.minute, log, sizeof log, &size, &steps, &total))) return 1;
    printf("log: %llu bytes, %llu steps, total %llu\n", (unsigned long long)size, (unsigned long long)steps, (unsigned long long)total);
    return carry_on(book, length, at, log, size);
}
