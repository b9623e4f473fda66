/* The same steps over a ticket lock of C atomics: the reference program of bench/turns.
   Use: ticket SEATS STEPS TURN */
#define _GNU_SOURCE
#include <limits.h>
#include <linux/futex.h>
#include <pthread.h>
#include <stdalign.h>
#include <stdbool.h>
#include <stdint.h>
#include <stdio.h>
#include <stdlib.h>
#include <sys/syscall.h>
#include <unistd.h>

struct entry {
    uint32_t by;
    uint32_t event;
};

/* In separate cache lines, as in the proved lock. */
static alignas(128) uint64_t next_ticket;
static alignas(128) uint64_t now_serving;
static uint64_t total;
static struct entry *journal;
static size_t entries;
static size_t room;
static uint32_t steps;
static uint32_t turn;

/* The kernel compares the low half of the word, which comes first in memory. */
static void futex(int operation, uint32_t value)
{
    syscall(SYS_futex, &now_serving, operation, value, NULL, NULL, 0);
}

/* The next seat in turn spins for a while. The others sleep until a turn is passed. */
static void wait_for(uint64_t mine)
{
    uint32_t spins = 0;
    for (;;) {
        uint64_t serving = __atomic_load_n(&now_serving, __ATOMIC_SEQ_CST);
        if (serving == mine)
            return;
        if (mine - serving == 1 && spins < 200) {
            spins += 1;
            __builtin_ia32_pause();
        } else {
            futex(FUTEX_WAIT_PRIVATE, (uint32_t)serving);
        }
    }
}

static void pass(void)
{
    uint64_t mine = __atomic_fetch_add(&now_serving, 1, __ATOMIC_SEQ_CST);
    if (__atomic_load_n(&next_ticket, __ATOMIC_SEQ_CST) != mine + 1)
        futex(FUTEX_WAKE_PRIVATE, INT_MAX);
}

static void step(uint32_t by, uint32_t event)
{
    total += event;
    if (entries == room)
        abort();
    journal[entries].by = by;
    journal[entries].event = event;
    entries += 1;
}

static void *work(void *number)
{
    bool kept = false;
    for (uint32_t event = 1; event <= steps; event++) {
        if (!kept)
            wait_for(__atomic_fetch_add(&next_ticket, 1, __ATOMIC_SEQ_CST));
        step((uint32_t)(uintptr_t)number, event);
        kept = event % turn != 0;
        if (!kept)
            pass();
    }
    if (kept)
        pass();
    return NULL;
}

int main(int count, char **words)
{
    if (count != 4)
        return 2;
    uint32_t seats = (uint32_t)strtoul(words[1], NULL, 10);
    steps = (uint32_t)strtoul(words[2], NULL, 10);
    turn = (uint32_t)strtoul(words[3], NULL, 10);
    if (seats == 0 || seats > 100 || turn == 0)
        return 2;
    room = (size_t)seats * steps;
    journal = malloc(room * sizeof *journal);
    if (journal == NULL && room > 0)
        return 1;
    pthread_t threads[100];
    for (uint32_t i = 1; i < seats; i++)
        if (pthread_create(&threads[i], NULL, work, (void *)(uintptr_t)i) != 0)
            return 1;
    work((void *)0);
    for (uint32_t i = 1; i < seats; i++)
        pthread_join(threads[i], NULL);
    printf("%llu %zu\n", (unsigned long long)total, entries);
    free(journal);
    return 0;
}
