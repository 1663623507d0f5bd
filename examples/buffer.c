/* Formats a chip of 4 blocks; then gathers an operator's single moves, each a group of its own, in the write buffer, and flushes it where it is full
 * and at the end: 20 moves take 2 pages. Looks at valves before and after the last flush. The driver prints each step.
 *
 *   tools/build journal_archive
 *   cc -std=c99 -Wall -Wextra -I include examples/buffer.c target/staticlib/libjournal_c.a -o target/buffer_c
 */
#include <inttypes.h>
#include "chip.h"

static uint8_t medium[sizeof chip];
static VjJournal journal;

/* One move, a group of its own. A full buffer is flushed first. */
static void move(uint16_t valve, uint64_t word)
{
    uint8_t number = vj_run_buffer(&journal, &valve, &word, 1);
    if (number == VJ_REFUSED_BUFFER_FULL) {
        expect("flush", vj_run_flush(&journal));
        number = vj_run_buffer(&journal, &valve, &word, 1);
    }
    expect("buffer", number);
}

/* The word of a valve, flushed or not. */
static void look(uint16_t valve)
{
    VjWordPlace place = vj_word(journal.medium, journal.length, journal.state, journal.buffer, sizeof journal.buffer, valve);
    expect("word", place.number);
    const uint8_t *bytes = (place.in_buffer ? journal.buffer : journal.medium) + place.offset;
    uint64_t word = 0;
    for (size_t i = place.length; i > 0; i--)
        word = word << 8 | bytes[i - 1];
    printf("valve %u: %" PRIu64 " in the %s\n", (unsigned)valve, word, place.in_buffer ? "buffer" : "medium");
}

int main(void)
{
    vj_run_init(&journal, medium, sizeof medium, chip_driver);
    expect("format", vj_run_format(&journal));
    for (unsigned i = 0; i < 20; i++)
        move((uint16_t)(5 + i % 16), 1000 + i);
    look(5);
    look(20);
    expect("flush", vj_run_flush(&journal));
    look(5);
    return 0;
}
