/* Whole operations of the valve journal on a chip: each call does one operation from its begin to its last step, and carries every step to the
 * chip before it makes the next. A header alone, over the calls of valve_journal.h; no heap, and nothing is kept but the VjJournal.
 *
 *     static uint8_t medium[64 * VJ_BLOCK_BYTES];
 *     static VjJournal journal;
 *     vj_run_init(&journal, medium, sizeof medium, driver);
 *     number = vj_run_open(&journal);
 *     number = vj_run_append(&journal, keys, words, count);
 *
 * A VjJournal holds the chip's copy in memory, the state and the write buffer, and the driver, three callbacks that the caller writes. All are
 * lent to these calls alone while one of them runs; a callback calls none of them for the same journal.
 *
 * Answers. VJ_ACCEPTED: the operation is finished, and all of it is on the chip. VJ_RUN_FAILED: a callback failed. VJ_RUN_NOT_OPEN: the journal
 * is not open, and nothing was done. Any other number is a refusal as in valve_journal.h; what the operation's begin refuses changes nothing.
 *
 * When a callback fails. A step alters the copy first and is carried to the chip then. So where the callback fails, the copy is ahead of the
 * chip, and what the chip holds is known only once it is read again. The journal is therefore no longer open: its state is dropped, its length
 * is 0, and its buffer is emptied. Every call but vj_run_open and vj_run_format then answers VJ_RUN_NOT_OPEN, and every call of valve_journal.h
 * that is given journal.medium with journal.length answers 1 (vj_page an empty part), so that nobody takes the copy for the chip. vj_run_open
 * reads the chip again, and recovers: the operation has then counted whole or not at all, and the log tells which. A caller who would make a
 * group again looks there first. Buffered groups too are on the chip all, where their flush has counted, or are gone.
 * A step that is refused where its operation was accepted, because somebody else altered the copy, the state or the buffer, ends in the same
 * way, with the refusal's number; vj_run_is_open tells it from a refusal that changed nothing.
 * A format that failed is made again: what vj_run_open finds before that is not promised.
 *
 * What the driver owes, for the journal's promise to hold of the chip: a callback answers 0 only where the chip holds what was asked, also if
 * the power fails the moment after, and changes nothing else. One that fails, or that the power cuts, leaves what a cut leaves: in the page each
 * bit 1 or its final bit, in the block each bit as it was or 1. It may try again by itself before it answers.
 *
 * Stack: VJ_RUN_STACK_MOST bytes are enough for every call of this file, besides what the callbacks take.
 *
 * This file is tested, not proved: tests/tests/run.rs plays it against drivers that fail at each step.
 */
#ifndef VALVE_JOURNAL_RUN_H
#define VALVE_JOURNAL_RUN_H

#include <string.h>
#include "valve_journal.h"

#ifdef __cplusplus
extern "C" {
#endif

/* Answers beside the numbers of the refusals. */
enum {
    VJ_RUN_NOT_OPEN = 254, /* neither vj_run_open nor vj_run_format has been accepted since vj_run_init, or since a callback failed */
    VJ_RUN_FAILED = 255    /* a callback failed */
};

/* The most bytes of stack that a call takes, the callbacks aside: tests/tests/stack.rs measures it. */
enum { VJ_RUN_STACK_MOST = VJ_STACK_RECOVER + 8192 };

/* What a chip can do. Each callback gets `user`, and answers 0 where it is done and any other number where it failed. */
typedef struct VjDriver {
    int (*read)(void *user, uint8_t *bytes, size_t length);        /* reads `length` bytes, from the chip's first on: the whole chip */
    int (*program)(void *user, size_t page, const uint8_t *bytes); /* programs a page, counted from 0, with VJ_PAGE_BYTES bytes */
    int (*erase)(void *user, size_t block);                        /* erases a block, counted from 0, also if it reads FFh already */
    void *user;
} VjDriver;

/* A journal. Callers read it; only these calls write to it. */
typedef struct VjJournal {
    uint8_t *medium;     /* the copy of the chip in memory */
    size_t length;       /* its bytes, to be given with it to the readings of valve_journal.h; 0 while the journal is not open */
    size_t chip_length;  /* the chip's bytes, and so those of the copy */
    VjState state;       /* the state; while the journal is not open, one that fits no medium */
    uint8_t buffer[VJ_BUFFER_BYTES];
    VjDriver driver;
} VjJournal;

/* The text of an answer: a literal, which the caller leaves as it is. */
static inline const char *vj_run_text(uint8_t number)
{
    switch (number) {
    case VJ_RUN_NOT_OPEN:
        return "the journal is not open";
    case VJ_RUN_FAILED:
        return "the driver failed";
    default:
        return vj_refusal_text(number);
    }
}

/* Whether the journal is open: 1 or 0. */
static inline int vj_run_is_open(const VjJournal *journal)
{
    return journal->length != 0;
}

/* For the calls below: closes the journal. Its state is dropped and its buffer emptied. Hands back the number. */
static inline uint8_t vj_run_close(VjJournal *journal, uint8_t number)
{
    journal->length = 0;
    memset(&journal->state, 0, sizeof journal->state);
    memset(journal->buffer, 0xFF, sizeof journal->buffer);
    return number;
}

/* For the calls below: carries a step to the chip. 0 where it is there. */
static inline int vj_run_carry(const VjJournal *journal, const VjStepped *step)
{
    const VjDriver *driver = &journal->driver;
    size_t at = (size_t)step->at;
    if (step->touched == VJ_PAGE)
        return driver->program(driver->user, at, journal->medium + VJ_PAGE_BYTES * at);
    return driver->erase(driver->user, at);
}

/* For the calls below: the steps of an operation that was begun, each carried to the chip. Meanwhile the journal is not open. */
static inline uint8_t vj_run_finish(VjJournal *journal, const VjBegun *begun)
{
    VjStepped step;
    if (begun->number != VJ_ACCEPTED)
        return begun->number;
    journal->state = begun->state;
    journal->length = 0;
    do {
        step = vj_step(journal->medium, journal->chip_length, journal->state, journal->buffer, sizeof journal->buffer);
        if (step.number != VJ_ACCEPTED)
            return vj_run_close(journal, step.number);
        journal->state = step.state;
        if (vj_run_carry(journal, &step) != 0)
            return vj_run_close(journal, VJ_RUN_FAILED);
    } while (!step.finished);
    journal->length = journal->chip_length;
    return VJ_ACCEPTED;
}

/* Makes a journal that is not open, for a chip of `length` bytes. `medium` has so many bytes, of any content. */
static inline void vj_run_init(VjJournal *journal, uint8_t *medium, size_t length, VjDriver driver)
{
    journal->medium = medium;
    journal->chip_length = length;
    journal->driver = driver;
    (void)vj_run_close(journal, VJ_ACCEPTED);
}

/* Reads the chip and recovers: at the start, and after a failure. Groups in the buffer that no flush has put on the chip are gone. Refuses 1 to
 * 6; where it does not answer VJ_ACCEPTED the journal is not open. */
static inline uint8_t vj_run_open(VjJournal *journal)
{
    VjRecovered found;
    (void)vj_run_close(journal, VJ_ACCEPTED);
    if (journal->driver.read(journal->driver.user, journal->medium, journal->chip_length) != 0)
        return VJ_RUN_FAILED;
    found = vj_recover(journal->medium, journal->chip_length);
    if (found.number == VJ_ACCEPTED) {
        journal->state = found.state;
        journal->length = journal->chip_length;
    }
    return found.number;
}

/* Formats the chip: all that is on it is lost. The journal may be open or not. Refuses 1. */
static inline uint8_t vj_run_format(VjJournal *journal)
{
    VjBegun begun = vj_format(journal->medium, journal->chip_length);
    if (begun.number == VJ_ACCEPTED)
        (void)vj_run_close(journal, VJ_ACCEPTED);
    return vj_run_finish(journal, &begun);
}

/* Appends a group of `count` entries, given as to vj_append. Refuses as vj_append. */
static inline uint8_t vj_run_append(VjJournal *journal, const uint16_t *keys, const uint64_t *words, size_t count)
{
    VjBegun begun;
    if (!vj_run_is_open(journal))
        return VJ_RUN_NOT_OPEN;
    begun = vj_append(journal->medium, journal->length, journal->state, journal->buffer, sizeof journal->buffer, keys, count, words, count);
    return vj_run_finish(journal, &begun);
}

/* Commits: the log is empty then, so it is filed before, and nothing is appended or flushed in between. Refuses as vj_commit. */
static inline uint8_t vj_run_commit(VjJournal *journal)
{
    VjBegun begun;
    if (!vj_run_is_open(journal))
        return VJ_RUN_NOT_OPEN;
    begun = vj_commit(journal->medium, journal->length, journal->state, journal->buffer, sizeof journal->buffer);
    return vj_run_finish(journal, &begun);
}

/* Collects a block, say the one that vj_pick names. Refuses as vj_collect. */
static inline uint8_t vj_run_collect(VjJournal *journal, uint64_t block)
{
    VjBegun begun;
    if (!vj_run_is_open(journal))
        return VJ_RUN_NOT_OPEN;
    begun = vj_collect(journal->medium, journal->length, journal->state, journal->buffer, sizeof journal->buffer, block);
    return vj_run_finish(journal, &begun);
}

/* Puts a group of `count` entries, given as to vj_append, into the buffer; nothing goes to the chip. Refuses as vj_buffer:
 * VJ_REFUSED_BUFFER_FULL where a flush comes first. */
static inline uint8_t vj_run_buffer(VjJournal *journal, const uint16_t *keys, const uint64_t *words, size_t count)
{
    if (!vj_run_is_open(journal))
        return VJ_RUN_NOT_OPEN;
    return vj_buffer(journal->medium, journal->length, journal->state, journal->buffer, sizeof journal->buffer, keys, count, words, count);
}

/* Flushes the groups in the buffer. Refuses as vj_flush: VJ_REFUSED_LISTS where there is none. */
static inline uint8_t vj_run_flush(VjJournal *journal)
{
    VjBegun begun;
    if (!vj_run_is_open(journal))
        return VJ_RUN_NOT_OPEN;
    begun = vj_flush(journal->medium, journal->length, journal->state, journal->buffer, sizeof journal->buffer);
    return vj_run_finish(journal, &begun);
}

/* Appends a group of `count` entries as vj_run_append does, and makes room for it first where too few pages are available: the commits and
 * collections that vj_next names, each with all its steps. `filed` says that the log was read and is filed, and nothing appended since: only
 * then is it emptied by a commit. Where there is no room without that it answers 15 or 13: the caller files the log and calls again. With
 * `filed` one commit and one collection are enough where VJ_RESERVE_PAGES pages are available; where fewer are, see vj_next, it may answer
 * 13: the caller makes the call once without it, which may answer 15 after it has collected something, and then with it. Refuses as vj_next,
 * and 13 after more operations than a medium has blocks; what was done until then stays. */
static inline uint8_t vj_run_write(VjJournal *journal, const uint16_t *keys, const uint64_t *words, size_t count, bool filed)
{
    unsigned turns;
    if (!vj_run_is_open(journal))
        return VJ_RUN_NOT_OPEN;
    for (turns = 0; turns <= VJ_MOST_BLOCKS; turns++) {
        uint8_t number;
        VjNext next = vj_next(journal->medium, journal->length, journal->state, journal->buffer, sizeof journal->buffer, keys, count, words, count, filed);
        if (next.number != VJ_ACCEPTED)
            return next.number;
        if (next.operation == VJ_APPEND)
            return vj_run_append(journal, keys, words, count);
        number = next.operation == VJ_COMMIT ? vj_run_commit(journal) : vj_run_collect(journal, next.block);
        if (number != VJ_ACCEPTED)
            return number;
    }
    return VJ_REFUSED_PAGES;
}

#ifdef __cplusplus
}
#endif

#endif
