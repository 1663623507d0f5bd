/* Formats a chip of 4 blocks, appends the groups {5 -> 1000, 7 -> 20} and {remove 5}; then, as on the morning after a power cut, opens the journal,
 * reads the log and the settings, which an archive files now, commits, and collects the block that the picker names.
 * The driver prints each step.
 *
 *   tools/build journal_archive
 *   cc -std=c99 -Wall -Wextra -I include examples/journal.c target/staticlib/libjournal_c.a -o target/journal_c
 */
#include <inttypes.h>
#include "chip.h"

static uint8_t medium[sizeof chip];
static VjJournal journal;
enum { CHANGES = 4 * VJ_BLOCK_ENTRIES };
static uint16_t keys[CHANGES];
static uint64_t words[CHANGES];
static uint32_t groups[CHANGES];
static uint16_t valves[VJ_MOST_VALVES];
static uint64_t openings[VJ_MOST_VALVES];

/* Opens the journal and prints the log and the settings. */
static void morning(void)
{
    expect("open", vj_run_open(&journal));
    VjCount log = vj_log(journal.medium, journal.length, keys, CHANGES, words, CHANGES, groups, CHANGES);
    expect("log", log.number);
    printf("log %zu\n", log.count);
    for (size_t i = 0; i < log.count; i++)
        if (keys[i] < VJ_REMOVAL)
            printf("%" PRIu32 " %u %" PRIu64 "\n", groups[i], (unsigned)keys[i], words[i]);
        else
            printf("%" PRIu32 " %u -\n", groups[i], (unsigned)keys[i] - VJ_REMOVAL);
    VjCount set = vj_settings(journal.medium, journal.length, journal.state, valves, VJ_MOST_VALVES, openings, VJ_MOST_VALVES);
    expect("settings", set.number);
    printf("set %zu\n", set.count);
    for (size_t i = 0; i < set.count; i++)
        printf("%u %" PRIu64 "\n", (unsigned)valves[i], openings[i]);
}

int main(void)
{
    vj_run_init(&journal, medium, sizeof medium, chip_driver);
    expect("format", vj_run_format(&journal));
    expect("append", vj_run_append(&journal, (uint16_t[]){5, 7}, (uint64_t[]){1000, 20}, 2));
    expect("append", vj_run_append(&journal, (uint16_t[]){5 + VJ_REMOVAL}, (uint64_t[]){0}, 1));
    morning();
    expect("commit", vj_run_commit(&journal));
    VjPick pick = vj_pick(journal.medium, journal.length, journal.state);
    expect("pick", pick.number);
    if (pick.found)
        expect("collect", vj_run_collect(&journal, pick.block));
    morning();
    return 0;
}
