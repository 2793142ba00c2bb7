/* How much stack each call takes on the books named, as they are and with a WN record after each rule, as measured: the call runs on a stack of its own
 * that was filled with one byte before, and what is no longer that byte was used. What starting a thread takes by itself is left out. Needs POSIX
 * threads.
 * usage: stack BOOK.. */
#define _POSIX_C_SOURCE 200809L
#include <pthread.h>
#include <stdio.h>
#include <stdlib.h>
#include <string.h>
#include "why.h"

#define STACK (1 << 20)
#define FILLED 0xa5
#define MOMENT 2099, 12, 30, 1439 /* in force then is every rule without a WN record, and with the one below */

static uint8_t book[WHY_MAX_BOOK + 1], buffer[WHY_MAX_WITHOUT_FACTS], text[1 << 14];
static size_t length, text_length;
static uint64_t variables, choices, rules, yes[WHY_MAX_RULES], no[WHY_MAX_RULES], facts_yes, facts_no, a, b, c, d, e;
static int64_t goal;
static uint16_t costs[WHY_MAX_CHOICES][2], windows[WHY_MAX_RULES][9];

static void nothing(void) {}
static void read_book(void) { why_read_book(book, length, &variables, &choices, &rules, yes, no, windows, &facts_yes, &facts_no); }
static void read_costs(void) { why_read_costs(book, length, costs); }
static void read_dimacs(void) { why_read_dimacs(text, text_length, buffer, sizeof buffer, &a); }
static void model(void) { why_model(book, length, MOMENT, &a); }
static void consequence(void) { why_consequence(book, length, MOMENT, &a, &b); }
static void next_step(void) { why_next_step(book, length, MOMENT, facts_yes, facts_no, &goal, &a, &b, &c, &d, &e); }
static void write_log(void) { why_log(book, length, MOMENT, buffer, sizeof buffer, &a, &b, &c); }
/* From the half of the log that was written just before; a refusal would not come to the writing. */
static void resume_log(void) {
    if (why_resume_log(book, length, MOMENT, buffer, sizeof buffer, (size_t)a / 2, &a, &b, &c) != WHY_DONE) exit(2);
}

static const struct {
    const char *name;
    void (*call)(void);
} calls[] = {{"why_read_book", read_book}, {"why_read_costs", read_costs},   {"why_read_dimacs", read_dimacs}, {"why_model", model},
             {"why_consequence", consequence}, {"why_next_step", next_step}, {"why_log", write_log},         {"why_resume_log", resume_log}};

static void *start(void *call) {
    (*(void (**)(void))call)();
    return NULL;
}

/* The bytes of its stack that a thread used which only makes this call. */
static size_t used(void (*call)(void)) {
    static uint8_t *stack;
    pthread_t thread;
    pthread_attr_t attributes;
    size_t untouched = 0;
    if (!stack && posix_memalign((void **)&stack, 4096, STACK)) exit(2);
    memset(stack, FILLED, STACK);
    pthread_attr_init(&attributes);
    if (pthread_attr_setstack(&attributes, stack, STACK) || pthread_create(&thread, &attributes, start, &call)) exit(2);
    pthread_join(thread, NULL);
    pthread_attr_destroy(&attributes);
    while (untouched < STACK && stack[untouched] == FILLED) untouched++;
    return STACK - untouched;
}

/* The rules of the book as a DIMACS CNF text. */
static void write_text(void) {
    char *at = (char *)text;
    at += sprintf(at, "p cnf %d %d\n", (int)variables, (int)rules);
    for (uint64_t i = 0; i < rules; i++) {
        for (int v = 0; v < WHY_MAX_VARIABLES; v++)
            if ((yes[i] | no[i]) >> v & 1) at += sprintf(at, "%d ", yes[i] >> v & 1 ? v + 1 : -v - 1);
        at += sprintf(at, "0\n");
    }
    text_length = (size_t)(at - (char *)text);
}

/* Puts a WN record after each rule that has none: all days and minutes that there are. */
static void add_windows(void) {
    static const uint8_t window[15] = {'W', 'N', 0x07, 0xd0, 1, 1, 0x08, 0x33, 12, 31, 127, 0, 0, 0x05, 0xa0};
    static uint8_t wider[WHY_MAX_BOOK + 1];
    size_t from = 0, to = 0;
    while (from < length) {
        uint8_t letter = book[from];
        size_t size = letter == 'H' ? 5 : letter == 'C' ? 7 : letter == 'R' ? 3 + book[from + 2] : letter == 'W' ? 15 : letter == 'F' ? 3 : 2;
        memcpy(wider + to, book + from, size);
        from += size;
        to += size;
        if (letter == 'R' && book[from] != 'W') {
            memcpy(wider + to, window, sizeof window);
            to += sizeof window;
        }
    }
    memcpy(book, wider, to);
    length = to;
}

int main(int count, char **names) {
    size_t most[sizeof calls / sizeof *calls] = {0}, empty = used(nothing);
    for (int i = 1; i < count; i++) {
        FILE *file = fopen(names[i], "rb");
        if (!file) return fprintf(stderr, "no book %s\n", names[i]), 2;
        length = fread(book, 1, sizeof book, file);
        fclose(file);
        for (int wide = 0; wide < 2; wide++) {
            if (wide) add_windows();
            if (why_model(book, length, MOMENT, &a) != WHY_DONE) return fprintf(stderr, "no answer to %s\n", names[i]), 2;
            read_book();
            write_text();
            for (size_t k = 0; k < sizeof calls / sizeof *calls; k++) {
                size_t now = used(calls[k].call) - empty;
                if (now > most[k]) most[k] = now;
            }
        }
    }
    for (size_t k = 0; k < sizeof calls / sizeof *calls; k++) printf("%-16s %6zu bytes of stack\n", calls[k].name, most[k]);
    return 0;
}
