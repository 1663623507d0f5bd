/* Reads a medium of at most 65536 bytes from standard input; prints its log and the valves that are set, or the number of the refusal, 1 for
 * more bytes.
 *
 * Exit status: 0 all is printed, a refusal too. 2 standard input or output failed, which is told on standard error; after a failed
 * read nothing is printed.
 *
 *   tools/build journal_archive
 *   cc -std=c99 -Wall -Wextra -I include examples/morning.c target/staticlib/libjournal_c.a -o target/morning_c
 */
#include <errno.h>
#include <inttypes.h>
#include <stdio.h>
#include <string.h>
#include "valve_journal.h"

enum { LONGEST = 16 * VJ_BLOCK_BYTES, CHANGES = 16 * VJ_BLOCK_ENTRIES };
static uint8_t medium[LONGEST + 1];
static uint16_t keys[CHANGES];
static uint64_t words[CHANGES];
static uint32_t groups[CHANGES];
static uint16_t valves[VJ_MOST_VALVES];
static uint64_t openings[VJ_MOST_VALVES];

/* A stream failed: the exit status. */
static int failed(const char *stream)
{
    fprintf(stderr, "morning: %s: %s\n", stream, strerror(errno));
    return 2;
}

/* All is printed: the exit status, once it is written. */
static int printed(void)
{
    return ferror(stdout) || fflush(stdout) != 0 ? failed("standard output") : 0;
}

static int refused(unsigned number)
{
    printf("refused %u\n", number);
    return printed();
}

int main(void)
{
    size_t length = fread(medium, 1, sizeof medium, stdin);
    if (ferror(stdin))
        return failed("standard input");
    if (length > LONGEST)
        return refused(VJ_REFUSED_LENGTH);
    VjCount log = vj_log(medium, length, keys, CHANGES, words, CHANGES, groups, CHANGES);
    if (log.number != VJ_ACCEPTED)
        return refused(log.number);
    VjRecovered found = vj_recover(medium, length);
    if (found.number != VJ_ACCEPTED)
        return refused(found.number);
    VjCount set = vj_settings(medium, length, found.state, valves, VJ_MOST_VALVES, openings, VJ_MOST_VALVES);
    if (set.number != VJ_ACCEPTED)
        return refused(set.number);
    printf("log %zu\n", log.count);
    for (size_t i = 0; i < log.count; i++)
        if (keys[i] < VJ_REMOVAL)
            printf("%" PRIu32 " %u %" PRIu64 "\n", groups[i], (unsigned)keys[i], words[i]);
        else
            printf("%" PRIu32 " %u -\n", groups[i], (unsigned)keys[i] - VJ_REMOVAL);
    printf("set %zu\n", set.count);
    for (size_t i = 0; i < set.count; i++)
        printf("%u %" PRIu64 "\n", (unsigned)valves[i], openings[i]);
    return printed();
}
