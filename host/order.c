/* Whether the compiled archive stores the bytes of a log from the first on. The buffer's page is read-only: each instruction that stores to it faults, is run
 * by itself, and then the buffer must hold the first bytes of the log and then its old contents, as after each byte of the source (log_form, E8). That is
 * what a kiosk would find whose memory outlasts the power. The old contents differ from the log at every byte. For Linux on x86-64.
 * usage: order BOOK ..      (returns 1 where a state was another one) */
#define _GNU_SOURCE
#include <signal.h>
#include <stdio.h>
#include <stdlib.h>
#include <string.h>
#include <sys/mman.h>
#include <ucontext.h>
#include "why.h"

#define PAGE 4096
#define TRAP_FLAG 0x100
#define MOMENT 2026, 11, 17, 720

static uint8_t book[WHY_MAX_BOOK + 1], *buffer, whole[PAGE], old[PAGE];
static size_t length, from;
static uint64_t size, steps, total;
static unsigned long stores, wrong, logs, all_stores, all_wrong;

/* A store: run its instruction alone. */
static void on_fault(int number, siginfo_t *info, void *context) {
    ucontext_t *at = context;
    (void)number;
    if ((uint8_t *)info->si_addr < buffer || buffer + PAGE <= (uint8_t *)info->si_addr) _Exit(2);
    mprotect(buffer, PAGE, PROT_READ | PROT_WRITE);
    at->uc_mcontext.gregs[REG_EFL] |= TRAP_FLAG;
}

/* After it: the buffer holds the log's first bytes, those before the break among them, and then the old contents. */
static void on_trap(int number, siginfo_t *info, void *context) {
    ucontext_t *at = context;
    size_t k = 0;
    (void)number, (void)info;
    while (k < size && buffer[k] == whole[k]) k++;
    stores++;
    wrong += k < from || memcmp(buffer + k, old + k, PAGE - k) != 0;
    mprotect(buffer, PAGE, PROT_READ);
    at->uc_mcontext.gregs[REG_EFL] &= ~(greg_t)TRAP_FLAG;
}

/* From no byte why_log, else why_resume_log. The numbers stand apart, so that `size` stays as it is while the handler looks at it. */
static uint64_t call(size_t written, uint64_t *a, uint64_t *b, uint64_t *c) {
    if (written == 0) return why_log(book, length, MOMENT, buffer, PAGE, a, b, c);
    return why_resume_log(book, length, MOMENT, buffer, PAGE, written, a, b, c);
}

/* One call, watched, with the log broken off at a byte. */
static void watch(size_t written) {
    uint64_t a, b, c;
    memcpy(buffer, whole, written);
    memcpy(buffer + written, old + written, PAGE - written);
    from = written;
    stores = wrong = 0;
    mprotect(buffer, PAGE, PROT_READ);
    uint64_t r = call(written, &a, &b, &c);
    mprotect(buffer, PAGE, PROT_READ | PROT_WRITE);
    if (r != WHY_DONE || a != size || memcmp(buffer, whole, PAGE) != 0) exit(2);
    all_stores += stores;
    all_wrong += wrong;
}

int main(int count, char **words) {
    struct sigaction fault = {.sa_sigaction = on_fault, .sa_flags = SA_SIGINFO}, trap = {.sa_sigaction = on_trap, .sa_flags = SA_SIGINFO};
    buffer = mmap(NULL, PAGE, PROT_READ | PROT_WRITE, MAP_PRIVATE | MAP_ANONYMOUS, -1, 0);
    if (buffer == MAP_FAILED || sigaction(SIGSEGV, &fault, NULL) != 0 || sigaction(SIGTRAP, &trap, NULL) != 0) return 2;
    for (int i = 1; i < count; i++) {
        FILE *file = fopen(words[i], "rb");
        if (file == NULL) return 2;
        length = fread(book, 1, sizeof book, file);
        fclose(file);
        memset(buffer, 0, PAGE);
        if (call(0, &size, &steps, &total) != WHY_DONE) continue;
        for (size_t k = 0; k < PAGE; k++) old[k] = (uint8_t)(buffer[k] + 1 + k % 200);
        memcpy(whole, buffer, size);
        memcpy(whole + size, old + size, PAGE - size);
        watch(0), watch(1), watch(size / 2), watch(size - 1);
        logs++;
    }
    printf("order: %lu logs, each broken off at four bytes: %lu stores, %lu states that are not a beginning and then the old contents\n", logs, all_stores,
           all_wrong);
    return logs == 0 || all_wrong != 0;
}
