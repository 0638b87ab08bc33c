/* Traces the stores that a call makes into a block of memory, on x86-64.

   While a trace goes on the block cannot be written, so every instruction that stores into it stops at a signal. The
   instruction is then made as a single step by the processor's trap flag, once with the bytes around filled with one
   value and once with another: what differs from either filling is what it stored, also where that is equal to what
   stood there. The registers are as they were before the second step, so the two store the same, and the bytes around
   are put back with the stored ones among them. Nothing is asked of the program that is traced. */
#ifndef TRACER_H
#define TRACER_H

#define _GNU_SOURCE
#include <signal.h>
#include <stdint.h>
#include <stdio.h>
#include <stdlib.h>
#include <string.h>
#include <sys/mman.h>
#include <ucontext.h>

/* The block's size, whole pages on every machine; how far around a store is looked, twice what an instruction stores at
   most; the most stores of a call; the two fillings. */
enum { BLOCK = 65536, AROUND = 128, STORES = 65536, TRAP_FLAG = 0x100, FILLING = 0x5A, OTHER_FILLING = 0xA5 };

/* Bytes that one instruction stored: the first, counted from the block's start, and how many. */
typedef struct {
    size_t start, length;
} store;

/* The block, and the stores into it in the order in which they were made. */
static uint8_t *block;
static store stores[STORES];
static size_t store_count;

/* What the tracer is at: an instruction that stores has not been met, or is being made for the first or second time; the
   bytes of the block that are looked at, as they were and after the first time; and the registers. */
static enum { WAITING, FIRST, SECOND } step;
static size_t low, high;
static uint8_t as_it_was[BLOCK], after_first[BLOCK];
static gregset_t registers;

/* Ends the program where the tracer cannot go on. */
static void tracer_stops(const char *why) {
    fprintf(stderr, "tracer: %s\n", why);
    _Exit(2);
}

/* Lets the block be written or not. */
static void guard(int may) {
    if (mprotect(block, BLOCK, may) != 0) tracer_stops("mprotect does not work");
}

/* Fills the bytes around, and has the instruction made as a single step. */
static void make(ucontext_t *context, int filling) {
    memset(block + low, filling, high - low);
    memcpy(context->uc_mcontext.gregs, registers, sizeof registers);
    context->uc_mcontext.gregs[REG_EFL] |= TRAP_FLAG;
}

/* An instruction is about to store into the block. */
static void on_store(int number, siginfo_t *info, void *context) {
    uint8_t *there = info->si_addr;
    size_t at = (size_t)(there - block);
    (void)number;
    if (step != WAITING || there < block || at >= BLOCK) tracer_stops("an access outside of the lent memory");
    low = at < AROUND ? 0 : at - AROUND;
    high = at > BLOCK - AROUND ? BLOCK : at + AROUND;
    guard(PROT_READ | PROT_WRITE);
    memcpy(as_it_was + low, block + low, high - low);
    memcpy(registers, ((ucontext_t *)context)->uc_mcontext.gregs, sizeof registers);
    make(context, FILLING);
    step = FIRST;
}

/* Whether a byte was stored. */
static int was_stored(size_t i) { return after_first[i] != FILLING || block[i] != OTHER_FILLING; }

/* Notes what the instruction stored, and puts the bytes around back with it. */
static void note(void) {
    size_t first = BLOCK, last = 0;
    for (size_t i = low; i < high; i++) {
        if (!was_stored(i)) continue;
        if (after_first[i] != block[i]) tracer_stops("an instruction that reads what it writes");
        if (first == BLOCK) first = i;
        else if (last + 1 != i) tracer_stops("an instruction that stores in two places");
        last = i;
        as_it_was[i] = block[i];
    }
    if (first == BLOCK) tracer_stops("an instruction that stores nothing");
    if (store_count == STORES) tracer_stops("too many stores");
    stores[store_count].start = first;
    stores[store_count++].length = last - first + 1;
    memcpy(block + low, as_it_was + low, high - low);
}

/* The instruction was made. */
static void on_step(int number, siginfo_t *info, void *context) {
    (void)number, (void)info;
    if (step == FIRST) {
        memcpy(after_first + low, block + low, high - low);
        make(context, OTHER_FILLING);
        step = SECOND;
    } else if (step == SECOND) {
        note();
        guard(PROT_READ);
        ((ucontext_t *)context)->uc_mcontext.gregs[REG_EFL] &= ~(greg_t)TRAP_FLAG;
        step = WAITING;
    } else {
        tracer_stops("a step that was not asked for");
    }
}

/* Makes the block ready. */
static void tracer_begin(void) {
    struct sigaction action;
    block = mmap(NULL, BLOCK, PROT_READ | PROT_WRITE, MAP_PRIVATE | MAP_ANONYMOUS, -1, 0);
    if (block == MAP_FAILED) tracer_stops("mmap does not work");
    memset(&action, 0, sizeof action);
    action.sa_flags = SA_SIGINFO;
    action.sa_sigaction = on_store;
    if (sigaction(SIGSEGV, &action, NULL) != 0) tracer_stops("sigaction does not work");
    action.sa_sigaction = on_step;
    if (sigaction(SIGTRAP, &action, NULL) != 0) tracer_stops("sigaction does not work");
}

/* Begins a trace. */
static void trace(void) {
    store_count = 0;
    step = WAITING;
    guard(PROT_READ);
}

/* Ends it. */
static void traced(void) { guard(PROT_READ | PROT_WRITE); }

#endif
