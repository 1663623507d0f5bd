/* The calls of valve_journal.h as a C program makes them, for the Rust tests: one function for each, over one struct of all that can be lent;
 * and the texts of the numbers. */
#include "valve_journal.h"

/* All that can be lent to a call. The lists are `count` long, `records` is `records_count` long. Keys and words are those of a group or of the log,
 * or the lists for the settings. */
typedef struct Lent {
    uint8_t *medium;
    size_t length;
    const VjState *state;
    uint8_t *buffer;
    uint16_t *keys;
    uint64_t *words;
    uint32_t *groups;
    size_t count;
    const VjRecord *records;
    size_t records_count;
    size_t number; /* the page, the valve, the block, the end of a span of the log, or whether the log has been read */
} Lent;

/* A call with its name and the most stack that the header says it takes. */
typedef struct Call {
    const char *name;
    size_t most;
    void (*make)(const Lent *lent);
} Call;

extern const Call test_calls[];
extern const size_t test_calls_count;
const char *test_refusal_text(uint8_t number);

#define MEDIUM lent->medium, lent->length
#define BUFFER lent->buffer, VJ_BUFFER_BYTES
#define GROUP lent->keys, lent->count, lent->words, lent->count

/* Defines the function that makes a call. */
#define MAKE(Answer, call, ...)                 \
    static void make_##call(const Lent *lent)   \
    {                                           \
        Answer answer = vj_##call(__VA_ARGS__); \
        (void)answer;                           \
    }

MAKE(VjRecovered, recover, MEDIUM)
MAKE(VjCount, log, MEDIUM, GROUP, lent->groups, lent->count)
MAKE(VjPlace, reader, MEDIUM)
MAKE(VjChange, change, MEDIUM, (VjPlace){0, 0, (uint16_t)lent->number, 0})
MAKE(VjNews, news, MEDIUM, 0, 0, 0)
MAKE(VjEffect, effect, MEDIUM, 0, (uint32_t)lent->number)
MAKE(VjCount, mattered, MEDIUM, lent->groups, lent->count)
MAKE(VjPart, page, MEDIUM, lent->number)
MAKE(VjWord, opening, MEDIUM, *lent->state, (uint16_t)lent->number)
MAKE(VjCount, settings, MEDIUM, *lent->state, GROUP)
MAKE(VjPick, pick, MEDIUM, *lent->state)
MAKE(VjSurvey, survey, MEDIUM, *lent->state)
MAKE(VjPages, available, MEDIUM, *lent->state)
MAKE(VjWordPlace, word, MEDIUM, *lent->state, BUFFER, (uint16_t)lent->number)
MAKE(VjWanted, wanted, MEDIUM, *lent->state, lent->records, lent->records_count)
MAKE(VjNext, next, MEDIUM, *lent->state, BUFFER, GROUP, lent->number != 0)
MAKE(VjBegun, format, MEDIUM)
MAKE(VjBegun, append, MEDIUM, *lent->state, BUFFER, GROUP)
MAKE(VjBegun, commit, MEDIUM, *lent->state, BUFFER)
MAKE(VjBegun, collect, MEDIUM, *lent->state, BUFFER, lent->number)
MAKE(VjBegun, flush, MEDIUM, *lent->state, BUFFER)
MAKE(uint8_t, buffer, MEDIUM, *lent->state, BUFFER, GROUP)
MAKE(VjStepped, step, MEDIUM, *lent->state, BUFFER)

const Call test_calls[] = {
    {"vj_recover", VJ_STACK_RECOVER, make_recover},
    {"vj_log", VJ_STACK_LOG, make_log},
    {"vj_reader", VJ_STACK_READER, make_reader},
    {"vj_change", VJ_STACK_CHANGE, make_change},
    {"vj_news", VJ_STACK_NEWS, make_news},
    {"vj_effect", VJ_STACK_EFFECT, make_effect},
    {"vj_mattered", VJ_STACK_MATTERED, make_mattered},
    {"vj_page", VJ_STACK_PAGE, make_page},
    {"vj_opening", VJ_STACK_OPENING, make_opening},
    {"vj_settings", VJ_STACK_SETTINGS, make_settings},
    {"vj_pick", VJ_STACK_PICK, make_pick},
    {"vj_survey", VJ_STACK_SURVEY, make_survey},
    {"vj_available", VJ_STACK_AVAILABLE, make_available},
    {"vj_word", VJ_STACK_WORD, make_word},
    {"vj_wanted", VJ_STACK_WANTED, make_wanted},
    {"vj_next", VJ_STACK_NEXT, make_next},
    {"vj_format", VJ_STACK_FORMAT, make_format},
    {"vj_append", VJ_STACK_APPEND, make_append},
    {"vj_commit", VJ_STACK_COMMIT, make_commit},
    {"vj_collect", VJ_STACK_COLLECT, make_collect},
    {"vj_flush", VJ_STACK_FLUSH, make_flush},
    {"vj_buffer", VJ_STACK_BUFFER, make_buffer},
    {"vj_step", VJ_STACK_STEP, make_step},
};
const size_t test_calls_count = sizeof test_calls / sizeof test_calls[0];

const char *test_refusal_text(uint8_t number)
{
    return vj_refusal_text(number);
}
