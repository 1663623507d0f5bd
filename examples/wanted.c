/* A grade change. On a chip of 4 blocks where {5 -> 1000, 7 -> 20, 9 -> 300} was appended, a control room opens the journal, asks for the group
 * that leads to the wanted openings {5 -> 1000, 8 -> 50, 9 -> 350}, and appends it. Asked again, nothing differs. The driver prints each step.
 *
 *   tools/build journal_archive
 *   cc -std=c99 -Wall -Wextra -I include examples/wanted.c target/staticlib/libjournal_c.a -o target/wanted_c
 */
#include <inttypes.h>
#include "chip.h"

static uint8_t medium[sizeof chip];
static VjJournal journal;

/* The group that leads to the wanted openings, where at most 96 valves differ, is printed and appended. What is pending or in the buffer is not
 * counted: whoever buffers moves flushes them first, and nothing else changes a valve between asking and appending. */
static void lead(const VjRecord *records, size_t count)
{
    VjWanted wanted = vj_wanted(journal.medium, journal.length, journal.state, records, count);
    expect("wanted", wanted.number);
    if (!wanted.found) {
        printf("more than 96 valves differ\n");
        return;
    }
    printf("group of %zu\n", wanted.group.count);
    for (size_t i = 0; i < wanted.group.count; i++)
        if (wanted.group.keys[i] < VJ_REMOVAL)
            printf("%u %" PRIu64 "\n", (unsigned)wanted.group.keys[i], wanted.group.vals[i]);
        else
            printf("%u -\n", (unsigned)wanted.group.keys[i] - VJ_REMOVAL);
    if (wanted.group.count > 0)
        expect("append", vj_run_append(&journal, wanted.group.keys, wanted.group.vals, wanted.group.count));
}

int main(void)
{
    static const VjRecord records[3] = {{5, 1000}, {8, 50}, {9, 350}};
    vj_run_init(&journal, medium, sizeof medium, chip_driver);
    expect("format", vj_run_format(&journal));
    expect("append", vj_run_append(&journal, (const uint16_t[]){5, 7, 9}, (const uint64_t[]){1000, 20, 300}, 3));
    expect("open", vj_run_open(&journal));
    lead(records, 3);
    lead(records, 3);
    printf("set %zu\n", journal.state.index.count);
    return 0;
}
