/* A box that keeps itself able to write. Ten thousand groups go to a chip of 4 blocks, which has room for 47 of them after formatting: each is written by
 * a call that first makes the room that is missing. Where there is none without emptying the log, the log is filed, and the group is offered
 * again. At the end every change was filed once, and each valve opens as it was set last.
 *
 *   tools/build journal_archive
 *   cc -std=c99 -Wall -Wextra -I include examples/housekeeping.c target/staticlib/libjournal_c.a -o target/housekeeping_c
 */
#include "chip.h"

enum { GROUPS = 10000, VALVES = 150, CHANGES = 4 * VJ_BLOCK_ENTRIES };

static uint8_t medium[sizeof chip];
static VjJournal journal;
static size_t filings, changes;

/* Files the log: here the changes are only counted; examples/archive.c has how they are filed durably. */
static void file_log(void)
{
    static uint16_t keys[CHANGES];
    static uint64_t words[CHANGES];
    static uint32_t groups[CHANGES];
    VjCount log = vj_log(journal.medium, journal.length, keys, CHANGES, words, CHANGES, groups, CHANGES);
    expect("log", log.number);
    filings++;
    changes += log.count;
}

/* One group of one change. */
static void write_change(uint16_t valve, uint64_t word)
{
    uint8_t number = vj_run_write(&journal, &valve, &word, 1, false);
    if (number == VJ_REFUSED_BLOCK || number == VJ_REFUSED_PAGES) {
        file_log();
        number = vj_run_write(&journal, &valve, &word, 1, true);
    }
    expect("write", number);
}

int main(void)
{
    size_t right = 0;
    chip_prints = 0;
    vj_run_init(&journal, medium, sizeof medium, chip_driver);
    expect("format", vj_run_format(&journal));
    for (unsigned i = 0; i < GROUPS; i++)
        write_change((uint16_t)(1 + i % VALVES), i);
    file_log();
    for (unsigned i = GROUPS - VALVES; i < GROUPS; i++) {
        VjWord word = vj_opening(journal.medium, journal.length, journal.state, (uint16_t)(1 + i % VALVES));
        expect("opening", word.number);
        right += word.word == i;
    }
    printf("%d groups written to %d blocks, never refused\n", GROUPS, 4);
    printf("%zu changes filed, in %zu filings of the log\n", changes, filings);
    printf("%zu of %d valves open as they were set last\n", right, VALVES);
    printf("%zu pages programmed, %zu blocks erased\n", chip_pages, chip_blocks);
    return changes == GROUPS && right == VALVES ? 0 : 1;
}
