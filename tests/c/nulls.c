/* Every call of valve_journal.h with NULL in the place of what has the length 0, for the Rust tests. */
#include "valve_journal.h"

#define NONE NULL, 0

unsigned test_nulls(uint8_t *medium, size_t length, const VjState *state, uint8_t *buffer);

/* Whether there is no more at a place, so that it is the place that was asked. */
static int no_more_at(VjChange answer, VjPlace asked)
{
    const VjPlace next = answer.next;
    return answer.found == 0 && answer.key == 0 && answer.group == 0 && answer.word == 0
        && next.number == asked.number && next.entry == asked.entry && next.page == asked.page && next.group == asked.group;
}

/* The answer that is not as expected, counted from 1; 0 where all are. The medium was just formatted, the state is its, the buffer is empty. */
unsigned test_nulls(uint8_t *medium, size_t length, const VjState *state, uint8_t *buffer)
{
    const VjCount log = vj_log(medium, length, NONE, NONE, NONE);
    const VjCount settings = vj_settings(medium, length, *state, NONE, NONE);
    const VjWanted wanted = vj_wanted(medium, length, *state, NONE);
    const VjEffect effect = vj_effect(medium, length, 0, 0);
    const VjPlace start = vj_reader(medium, length);
    const VjPlace refused = vj_reader(NONE);
    const int expected[] = {
        vj_recover(NONE).number == VJ_REFUSED_LENGTH,
        vj_log(NONE, NONE, NONE, NONE).number == VJ_REFUSED_LENGTH,
        refused.number == VJ_REFUSED_LENGTH,
        no_more_at(vj_change(NONE, start), start),
        no_more_at(vj_change(medium, length, refused), refused),
        vj_news(NONE, 0, 0, 0).number == VJ_REFUSED_LENGTH,
        vj_effect(NONE, 0, 0).number == VJ_REFUSED_LENGTH,
        vj_mattered(NONE, NONE).number == VJ_REFUSED_LENGTH,
        vj_mattered(medium, length, NONE).number == VJ_ACCEPTED,
        vj_page(NONE, 0).length == 0,
        vj_opening(NONE, *state, 5).number == VJ_REFUSED_LENGTH,
        vj_settings(NONE, *state, NONE, NONE).number == VJ_REFUSED_LENGTH,
        vj_pick(NONE, *state).number == VJ_REFUSED_LENGTH,
        vj_survey(NONE, *state).number == VJ_REFUSED_LENGTH,
        vj_available(NONE, *state).number == VJ_REFUSED_LENGTH,
        vj_word(NONE, *state, NONE, 5).number == VJ_REFUSED_LENGTH,
        vj_wanted(NONE, *state, NONE).number == VJ_REFUSED_LENGTH,
        vj_next(NONE, *state, NONE, NONE, NONE, true).number == VJ_REFUSED_LENGTH,
        vj_format(NONE).number == VJ_REFUSED_LENGTH,
        vj_append(NONE, *state, NONE, NONE, NONE).number == VJ_REFUSED_LENGTH,
        vj_commit(NONE, *state, NONE).number == VJ_REFUSED_LENGTH,
        vj_collect(NONE, *state, NONE, 0).number == VJ_REFUSED_LENGTH,
        vj_flush(NONE, *state, NONE).number == VJ_REFUSED_LENGTH,
        vj_buffer(NONE, *state, NONE, NONE, NONE) == VJ_REFUSED_LENGTH,
        vj_step(NONE, *state, NONE).number == VJ_REFUSED_LENGTH,
        log.number == VJ_ACCEPTED && log.count == 0,
        start.number == VJ_ACCEPTED && no_more_at(vj_change(medium, length, start), start),
        effect.number == VJ_ACCEPTED && effect.cells.count == 0,
        vj_effect(medium, length, 0, 1).number == VJ_REFUSED_SPAN,
        settings.number == VJ_ACCEPTED && settings.count == 0,
        wanted.number == VJ_ACCEPTED && wanted.found == 1 && wanted.group.count == 0,
        vj_word(medium, length, *state, NONE, 5).number == VJ_REFUSED_STATE,
        vj_next(medium, length, *state, NONE, NONE, NONE, true).number == VJ_REFUSED_STATE,
        vj_commit(medium, length, *state, NONE).number == VJ_REFUSED_STATE,
        vj_collect(medium, length, *state, NONE, 0).number == VJ_REFUSED_STATE,
        vj_flush(medium, length, *state, NONE).number == VJ_REFUSED_STATE,
        vj_step(medium, length, *state, NONE).number == VJ_REFUSED_STATE,
        vj_next(medium, length, *state, buffer, VJ_BUFFER_BYTES, NONE, NONE, true).number == VJ_REFUSED_LISTS,
        vj_append(medium, length, *state, buffer, VJ_BUFFER_BYTES, NONE, NONE).number == VJ_REFUSED_LISTS,
        vj_buffer(medium, length, *state, buffer, VJ_BUFFER_BYTES, NONE, NONE) == VJ_REFUSED_LISTS,
    };
    for (size_t i = 0; i < sizeof expected / sizeof expected[0]; i++)
        if (!expected[i])
            return (unsigned)i + 1;
    return 0;
}
