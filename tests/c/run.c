/* The calls of valve_journal_run.h as functions that the Rust tests can link. */
#include "valve_journal_run.h"

extern const size_t test_journal_bytes;
extern const size_t test_run_stack_most;
const size_t test_journal_bytes = sizeof(VjJournal);
const size_t test_run_stack_most = VJ_RUN_STACK_MOST;

const char *test_run_text(uint8_t number);
int test_run_is_open(const VjJournal *journal);
void test_run_init(VjJournal *journal, uint8_t *medium, size_t length, const VjDriver *driver);
uint8_t test_run_open(VjJournal *journal);
uint8_t test_run_format(VjJournal *journal);
uint8_t test_run_append(VjJournal *journal, const uint16_t *keys, const uint64_t *words, size_t count);
uint8_t test_run_write(VjJournal *journal, const uint16_t *keys, const uint64_t *words, size_t count, bool filed);
uint8_t test_run_commit(VjJournal *journal);
uint8_t test_run_collect(VjJournal *journal, uint64_t block);
uint8_t test_run_buffer(VjJournal *journal, const uint16_t *keys, const uint64_t *words, size_t count);
uint8_t test_run_flush(VjJournal *journal);

const char *test_run_text(uint8_t number)
{
    return vj_run_text(number);
}

int test_run_is_open(const VjJournal *journal)
{
    return vj_run_is_open(journal);
}

void test_run_init(VjJournal *journal, uint8_t *medium, size_t length, const VjDriver *driver)
{
    vj_run_init(journal, medium, length, *driver);
}

uint8_t test_run_open(VjJournal *journal)
{
    return vj_run_open(journal);
}

uint8_t test_run_format(VjJournal *journal)
{
    return vj_run_format(journal);
}

uint8_t test_run_append(VjJournal *journal, const uint16_t *keys, const uint64_t *words, size_t count)
{
    return vj_run_append(journal, keys, words, count);
}

uint8_t test_run_write(VjJournal *journal, const uint16_t *keys, const uint64_t *words, size_t count, bool filed)
{
    return vj_run_write(journal, keys, words, count, filed);
}

uint8_t test_run_commit(VjJournal *journal)
{
    return vj_run_commit(journal);
}

uint8_t test_run_collect(VjJournal *journal, uint64_t block)
{
    return vj_run_collect(journal, block);
}

uint8_t test_run_buffer(VjJournal *journal, const uint16_t *keys, const uint64_t *words, size_t count)
{
    return vj_run_buffer(journal, keys, words, count);
}

uint8_t test_run_flush(VjJournal *journal)
{
    return vj_run_flush(journal);
}
