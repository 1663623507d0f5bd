/* What a program does when its driver fails. On a chip of 4 blocks an append of 40 entries, two pages, fails inside its second page. The journal is
 * then no longer open: the next append is turned away. It is opened again, which reads the chip; the group has counted whole or not at all, so
 * the log is asked before the group is appended once more.
 *
 *   tools/build journal_archive
 *   cc -std=c99 -Wall -Wextra -I include examples/failure.c target/staticlib/libjournal_c.a -o target/failure_c
 */
#include "chip.h"

static uint8_t medium[sizeof chip];
static VjJournal journal;
enum { CHANGES = 4 * VJ_BLOCK_ENTRIES };
static uint16_t keys[CHANGES];
static uint64_t words[CHANGES];
static uint32_t groups[CHANGES];

static uint8_t told(const char *call, uint8_t number)
{
    printf("%s: %u, %s\n", call, (unsigned)number, vj_run_text(number));
    return number;
}

/* The changes in the log; none where the journal is not open. */
static size_t changes(void)
{
    VjCount log = vj_log(journal.medium, journal.length, keys, CHANGES, words, CHANGES, groups, CHANGES);
    return told("log", log.number) == VJ_ACCEPTED ? log.count : 0;
}

int main(void)
{
    static uint16_t group_keys[40];
    static uint64_t group_words[40];
    for (uint16_t i = 0; i < 40; i++)
        group_keys[i] = (uint16_t)(i + 1);
    vj_run_init(&journal, medium, sizeof medium, chip_driver);
    told("format", vj_run_format(&journal));
    size_t before = changes();
    chip_cut_in = 1; /* the next step is made, the one after it fails */
    told("append", vj_run_append(&journal, group_keys, group_words, 40));
    told("append", vj_run_append(&journal, group_keys, group_words, 40));
    changes();
    if (told("open", vj_run_open(&journal)) != VJ_ACCEPTED)
        return 1;
    if (changes() == before)
        told("append", vj_run_append(&journal, group_keys, group_words, 40));
    printf("log %zu\n", changes());
    return 0;
}
