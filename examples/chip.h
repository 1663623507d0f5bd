/* What the C examples share. A chip of 4 blocks in memory, with the driver that they hand to valve_journal_run.h: a real one talks to the chip instead,
 * and answers 0 only once the chip holds what was asked. It prints each step, unless it is told not to, and counts them. And `expect`, which ends an example. */
#ifndef CHIP_H
#define CHIP_H

#include <stdio.h>
#include <stdlib.h>
#include "valve_journal_run.h"

static uint8_t chip[4 * VJ_BLOCK_BYTES];
static int chip_prints = 1; /* each step */
static size_t chip_pages, chip_blocks; /* so many were programmed, and so many erased */
static int chip_cut_in = -1; /* after so many more steps its power fails inside one, half done; never while this is below 0 */

static int chip_fails(void)
{
    return chip_cut_in >= 0 && chip_cut_in-- == 0;
}

static int chip_read(void *user, uint8_t *bytes, size_t length)
{
    (void)user;
    memcpy(bytes, chip, length);
    return 0;
}

static int chip_program(void *user, size_t page, const uint8_t *bytes)
{
    int failed = chip_fails();
    (void)user;
    memcpy(chip + VJ_PAGE_BYTES * page, bytes, failed ? VJ_PAGE_BYTES / 2 : VJ_PAGE_BYTES);
    chip_pages++;
    if (chip_prints)
        printf("program page %zu%s\n", page, failed ? ": failed" : "");
    return failed;
}

static int chip_erase(void *user, size_t block)
{
    int failed = chip_fails();
    (void)user;
    memset(chip + VJ_BLOCK_BYTES * block, 0xFF, failed ? VJ_BLOCK_BYTES / 2 : VJ_BLOCK_BYTES);
    chip_blocks++;
    if (chip_prints)
        printf("erase block %zu%s\n", block, failed ? ": failed" : "");
    return failed;
}

static const VjDriver chip_driver = {chip_read, chip_program, chip_erase, NULL};

/* Ends the program where a call refuses or fails. */
static inline void expect(const char *call, uint8_t number)
{
    if (number != VJ_ACCEPTED) {
        printf("%s: %u, %s\n", call, (unsigned)number, vj_run_text(number));
        exit(1);
    }
}

#endif
