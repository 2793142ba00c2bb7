/* The Why engine for C: what each call answers, its refusals, its limits. How to link it and what a screen should do: README.md beside this file.
 *
 * Every call is handed the bytes of an order book, or of a text that a book is made of, and reads them. It returns 0 when it is done. Otherwise it
 * returns the refusal, and then changes nothing behind any pointer: its number is WHY_NUMBER(r), its place WHY_PLACE(r), counted from the first byte.
 *
 * Every call but the readers (why_read_book, why_read_costs, why_read_dimacs) is also handed the moment that it is to answer for: a date (year 2000 to
 * 2099, month 1 to 12, day from 1 to the month's last) and a minute of that day (0 to 1439). The moment is judged before the book is read. Only the
 * rules in force then are used: a rule without a WN record always is, a rule with one from its first day on and before its end day, on its weekdays,
 * from its first minute on and before its end minute. The engine has no clock: the caller knows the date and the time of day in the shop.
 *
 * A set of variables is a mask: bit v - 1 stands for variable v. A set of literals is two masks, the variables that are yes and those that are no.
 *
 * What the engine cannot check is left to the caller, of every call:
 *   - no pointer is null, also where its length is 0;
 *   - a pointer to bytes is good for as many bytes as the length after it says, an array for as many elements as it is declared with;
 *   - what is written to (buffers, arrays, single numbers) overlaps nothing else that is handed to the same call;
 *   - year, month, day and minute fit their types: the compiler cuts a larger number, and the engine sees only what is left of it.
 * Calls keep no state: they may run at the same time in several threads, each with its own buffers and numbers. */
#ifndef WHY_H
#define WHY_H

#include <stddef.h>
#include <stdint.h>

#ifdef __cplusplus
extern "C" {
#endif

/* ---- limits */

#define WHY_MAX_VARIABLES 48        /* V, the variables of a book */
#define WHY_MAX_CHOICES 32          /* U, the first of them, which are choices */
#define WHY_MAX_RULES 128           /* R, the rules of a book */
#define WHY_MAX_COST 999            /* a cost; the least is 1 */
#define WHY_MAX_LITERALS 8          /* the literals of one rule */
#define WHY_MAX_BOOK 3655           /* the bytes of a book: none that is longer is read */
#define WHY_MAX_LOG 1255            /* the bytes of a log: what the buffer of why_log and why_resume_log must have */
#define WHY_MAX_WITHOUT_FACTS 1639  /* the bytes of a book without facts and WN: what why_read_dimacs's buffer must have */
#define WHY_MAX_PLACE 0xffffffffffffff /* a place: one that is larger, which no memory has, is given as this one */

/* ---- what is returned */

#define WHY_DONE 0                              /* done */
#define WHY_NUMBER(r) ((unsigned)((r) & 0xff))  /* the number of a refusal */
#define WHY_PLACE(r) ((uint64_t)(r) >> 8)       /* the place of a refusal */

/* The numbers. 1 to 6 are placed where the record begins, 7 at the byte that follows, 8 to 10 and 15 at 0, 14 where the WN record begins (which is never
 * 0), for the call's moment at 0. */
#define WHY_BYTES_MISSING 1      /* fewer bytes are left than a record's mark, its count byte or its fields need */
#define WHY_WRONG_MARK 2         /* a mark that is not allowed there */
#define WHY_WRONG_HEADER 3       /* HD: V over 48, U over 32, U over V, or R over 128 */
#define WHY_WRONG_COST 4         /* CS: not the next choice, or a cost outside 1 to 999 */
#define WHY_WRONG_COUNT 5        /* RL: a count over 8 */
#define WHY_WRONG_LITERAL 6      /* RL, FA: literal 0, a variable over V (in FA over U), or not rising */
#define WHY_BYTE_AFTER_END 7     /* a byte after EN */
#define WHY_SHORT_BUFFER 8       /* the lent buffer is shorter than WHY_MAX_LOG, in why_read_dimacs than WHY_MAX_WITHOUT_FACTS */
#define WHY_NO_MODEL 9           /* no filling obeys the rules in force and the given facts */
#define WHY_WRONG_KNOWN_SET 10   /* the known set is not between the given facts and the consequence */
/* 11, goals without a candidate, is returned by no call: it was proved not to happen. */
#define WHY_NOT_DIMACS 12        /* the text is not of the form; at its first wrong byte, or at its length where it ends too soon */
#define WHY_TOO_LARGE_DIMACS 13  /* V over 48, R over 128, or a clause with over 8 literals; at the first byte of that number or clause */
#define WHY_WRONG_TIME 14        /* no such date or minute; in WN also an end not after its start, an end minute over 1440, weekdays 0 or over 127 */
#define WHY_NOT_BEGUN 15         /* the buffer's first bytes are not the beginning of this book's log at this moment, or more than it has, at 0 */

/* ---- the calls. What each refuses with stands in the order of the checks: the moment (14 at 0), then the book (1 to 7 and 14 in WN, by the first
 * record that is wrong), then the rest */

/* The book as it is read: V, U and R, the literals of rule i as the two masks rules_yes[i] and rules_no[i] (0 after the last rule), its WN record as
 * windows[i], and the given facts. All rules are there, whenever they are in force. The nine fields of a window are those of the record in turn: first
 * year, month and day, end year, month and day, weekdays (the lowest bit is Monday), first minute, end minute. All nine are 0 where rule i has no WN
 * record, and after the last rule; no WN record has weekdays 0, so windows[i][6] tells. Refuses with 1 to 7, 14 in WN. */
uint64_t why_read_book(const uint8_t *book, size_t book_length, uint64_t *variables, uint64_t *choices, uint64_t *rules,
                       uint64_t rules_yes[WHY_MAX_RULES], uint64_t rules_no[WHY_MAX_RULES], uint16_t windows[WHY_MAX_RULES][9], uint64_t *facts_yes,
                       uint64_t *facts_no);

/* The costs: costs[v - 1][0] is the cost of choice v's yes, costs[v - 1][1] of its no, 0 after the last choice. Refuses with 1 to 7, 14 in WN. */
uint64_t why_read_costs(const uint8_t *book, size_t book_length, uint16_t costs[WHY_MAX_CHOICES][2]);

/* Makes a book of a DIMACS CNF text, at the front of the buffer, and answers its length; the bytes after it stay. The book has no WN record. Refuses
 * with 8, 12, 13. */
uint64_t why_read_dimacs(const uint8_t *text, size_t text_length, uint8_t *buffer, size_t buffer_length, uint64_t *size);

/* The first model of the rules in force, as the mask of its yes: variable 1 is weightiest, and no comes before yes. Refuses with 14 at 0, 1 to 7, 14 in
 * WN, 9. */
uint64_t why_model(const uint8_t *book, size_t book_length, uint16_t year, uint8_t month, uint8_t day, uint16_t minute, uint64_t *model);

/* What is filled in: the literals over choices that are true in every model of the rules in force. Refuses with 14 at 0, 1 to 7, 14 in WN, 9. */
uint64_t why_consequence(const uint8_t *book, size_t book_length, uint16_t year, uint8_t month, uint8_t day, uint16_t minute, uint64_t *yes,
                         uint64_t *no);

/* The cheapest next step from a known set, by the rules in force: its goal (v for the yes of variable v, -v for its no), its reasons, its new literals,
 * its cost. Where nothing is left the goal is 0, which no step has, and so is everything else. Refuses with 14 at 0, 1 to 7, 14 in WN, 9, 10. */
uint64_t why_next_step(const uint8_t *book, size_t book_length, uint16_t year, uint8_t month, uint8_t day, uint16_t minute, uint64_t known_yes,
                       uint64_t known_no, int64_t *goal, uint64_t *reasons_yes, uint64_t *reasons_no, uint64_t *new_yes, uint64_t *new_no,
                       uint64_t *cost);

/* Writes the log of the rules in force at the front of the buffer, from the first byte on, and answers its length, its number of steps and their total
 * cost; the bytes after it stay. Refuses with 14 at 0, 1 to 7, 14 in WN, 8, 9. */
uint64_t why_log(const uint8_t *book, size_t book_length, uint16_t year, uint8_t month, uint8_t day, uint16_t minute, uint8_t *buffer,
                 size_t buffer_length, uint64_t *size, uint64_t *steps, uint64_t *total);

/* Carries a log on after a restart: the first `written` bytes of the buffer stand as why_log or this call wrote them for the same book and moment, the
 * others may be anything. Writes the log's bytes from there on, and answers what why_log would: the length, the steps and the total of the whole log;
 * the bytes after it stay. With 0 written it is why_log. Refuses with 14 at 0, 1 to 7, 14 in WN, 8, 9, 15.
 *
 * This call and why_log write nothing to the buffer before the last check that can refuse, and then the log's bytes from the first that is not written
 * yet, in rising order: at any time the buffer holds the first bytes of the log and then its old contents. That is so of the source; of the archive it is
 * tested (order.c), store by store, and not proved. Where a call breaks off in the middle, in memory that outlasts it, the bytes that were as written
 * before the call (`written`, for why_log none) are so in any case. */
uint64_t why_resume_log(const uint8_t *book, size_t book_length, uint16_t year, uint8_t month, uint8_t day, uint16_t minute, uint8_t *buffer,
                        size_t buffer_length, size_t written, uint64_t *size, uint64_t *steps, uint64_t *total);

#ifdef __cplusplus
}
#endif

#endif
