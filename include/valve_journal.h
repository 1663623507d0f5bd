/* The valve journal for C programs: recovery, the log, whole or change by change, the pages of a medium, the readings of a state, the operations that write, and the
 * write buffer.
 *
 * A medium is a run of bytes in memory, lent to each call as a pointer and a length. It has 4 to 256 blocks of 4096 bytes; a block has 16
 * pages of 256 bytes. Every call takes a medium of any length and any content and answers; none keeps a pointer, allocates, prints or
 * ends the program.
 *
 * A lent pointer is aligned for its type and, where its length is not 0, points to that many elements, which nobody else writes while the
 * call runs. Where its length is 0 it may be NULL. What a call writes, be it a list, a buffer or a medium, overlaps nothing else that is
 * lent to the same call.
 *
 * Only vj_step writes to a medium. An operation is begun by one call, vj_format, vj_append, vj_commit, vj_collect or vj_flush, which hands
 * back the state with the operation pending; then each vj_step makes one device step of it, until it tells that the operation is finished.
 * What a step touched is carried to the chip before the next call. Every call gets the state that the last one handed back.
 *
 * After a cut, where the power or the driver failed, the state is lost and the copy in memory may be ahead of the chip: the chip's bytes are
 * taken anew, and vj_recover comes next. The group that was under way is then in the log whole or not at all. A cut inside formatting promises
 * nothing, also if vj_recover accepts what it left: formatting is begun again.
 *
 * A write buffer is a run of VJ_BUFFER_BYTES bytes that the caller keeps beside the state. It gathers whole groups, 16 entries at most,
 * which a flush programs as one page. An empty buffer is all FFh. It is lent all FFh after formatting, after a cut and after a recovery;
 * else each call that takes it is lent it as the last such call left it. vj_buffer and vj_step write to it, no other call. What is in the
 * buffer is lost in a cut: a group is on the medium once its flush is finished. A buffer of any length and content may be lent: one that
 * is neither empty nor a page in the making, or of another length, is refused with 7.
 *
 * Names and types. Calls begin with vj_, types with Vj, constants with VJ_. VJ_x_BYTES, VJ_x_PAGES and VJ_x_ENTRIES say how many bytes, pages
 * and places for entries an x has; VJ_LEAST_x and VJ_MOST_x the least and the most that there may be. Each type is the library's of the same
 * size: u8, u16, u32 and u64 are uint8_t to uint64_t, usize is size_t. A lent list is a pointer, say keys, and after it its length in elements,
 * keys_length. Every answer that can be a refusal has as its first field, or is, the number: 0, or that of the refusal.
 *
 * Machines. The archive libjournal_c.a is one ELF object for x86-64 under the System V calling convention, position-independent: it links into
 * programs and shared objects for x86-64 Linux and other systems of that convention, not for Windows, macOS or other processors. It uses no
 * instruction beyond SSE2, of other libraries memcpy and memset only, and has no data that it writes to: calls on different media may run at the
 * same time. A C compiler that lays out a struct otherwise than the library stops at the assertions at the end of this file.
 *
 * Memory, of a program in all. Stack: the greatest VJ_STACK_x of the calls that it makes; it holds the state that a call is given and the one
 * that it hands back too. Between calls: the state, 4176 bytes, and the write buffer, VJ_BUFFER_BYTES. The medium, and the lists that it lends.
 * No heap, and no data of the library's that is written to. Code and constants: some 63 KB with all calls, 34 KB with vj_recover, vj_append,
 * vj_commit, vj_collect and vj_step alone, where the linker leaves out what is not called (--gc-sections).
 *
 * Flash that is mapped into memory may be lent to every call that takes the medium as const, where plain loads of up to 16 bytes give the chip's
 * bytes while the call runs: such a call reads the medium and writes nothing there. It must not be lent to vj_step, which stores the page or
 * the FFh of the block in the medium itself and leaves the chip to its caller. So a program that only reads needs no copy of the chip; one that
 * writes needs the whole chip in RAM, 16 KB to 1 MB, for the steps of an operation: it may read the chip into that RAM before the first step and
 * use the RAM for something else after the last one is carried to the chip, while all other calls are lent the mapped flash.
 *
 * valve_journal_run.h has whole operations over a chip's driver, each in one call.
 */
#ifndef VALVE_JOURNAL_H
#define VALVE_JOURNAL_H

#include <stddef.h>
#include <stdint.h>
#ifndef __cplusplus
#include <stdbool.h>
#endif

#ifdef __cplusplus
extern "C" {
#endif

/* The version of this interface: raised by one where a library that is given out has a call, a type, a constant or a meaning of a number other
 * than the one given out before it. The archive is built from the same commit as this file. */
#define VJ_INTERFACE_VERSION 3

/* The version of the layout, that is of what stands on a page: raised by one by each change after which a library before it refuses or
 * misreads pages that are written now. 1: kinds 1 to 3. 2: kind 4 too, the page that a flush programs. Every version reads the pages of
 * those before it. */
#define VJ_LAYOUT_VERSION 2

/* Sizes and limits. */
enum {
    VJ_PAGE_BYTES = 256,
    VJ_BLOCK_PAGES = 16,
    VJ_BLOCK_BYTES = 4096,
    VJ_BUFFER_BYTES = 256,   /* a write buffer */
    VJ_PAGE_ENTRIES = 24,    /* a page of an append or a commit; more entries take more pages */
    VJ_BLOCK_ENTRIES = 384,  /* the log has no more changes than that for each block of the medium */
    VJ_BUFFER_ENTRIES = 16,
    VJ_RESERVE_PAGES = 16,   /* so many stay available after an append or a flush; a commit and a collection may use them */
    VJ_LEAST_BLOCKS = 4,     /* of a medium */
    VJ_MOST_BLOCKS = 256,
    VJ_MOST_VALVES = 192,    /* set at a time */
    VJ_MOST_ENTRIES = 96,    /* of a group that is appended */
    VJ_MOST_RECORDS = 192,   /* wanted */
    VJ_LAST_VALVE = 32767,   /* valves are numbered from 0 to this; 0 is no valve: it can be removed where an old medium has it, not be set */
    VJ_REMOVAL = 32768       /* the key that removes a valve is the valve + this; a lower key is the valve it sets */
};

/* The refusals: number, name and text. Each call says its numbers in the order in which they are asked, and gives the first that applies.
 * 26 and 27 are no call's. The program rerun prints 26 where a recorded run breaks its form, 27 where a recorded cut meets no step, or one of
 * another page or block. */
#define VJ_REFUSALS(X) \
    X(1, VJ_REFUSED_LENGTH, "the medium's length is not 4 to 256 times 4096 bytes") \
    X(2, VJ_REFUSED_PAGE_RULES, "a whole page breaks the page rules") \
    X(3, VJ_REFUSED_SAME_SERIAL, "two whole pages share a serial") \
    X(4, VJ_REFUSED_NO_BASE, "no complete base") \
    X(5, VJ_REFUSED_SEQUENCE, "from the base on, a gap in the serials or a page out of its group") \
    X(6, VJ_REFUSED_INDEX, "the base's valves do not rise, over 192 valves are set, or an address of the index lacks its entry") \
    X(7, VJ_REFUSED_STATE, "the state does not fit the medium, or the buffer is not well formed or, while a flush is pending, holds nothing that can be flushed") \
    X(8, VJ_REFUSED_PENDING, "an operation is pending") \
    X(9, VJ_REFUSED_NONE_PENDING, "no operation is pending") \
    X(10, VJ_REFUSED_LISTS, "the lists of a group differ in length, or have no entry, or over 96; or a flush of an empty buffer") \
    X(11, VJ_REFUSED_ENTRY, "a removal's word is not 0, or valve 0 is set") \
    X(12, VJ_REFUSED_VALVES, "more than 192 valves would be set, those of the buffer counted") \
    X(13, VJ_REFUSED_PAGES, "too few pages are available") \
    X(14, VJ_REFUSED_SERIALS, "too few serials are left: the next serial and the pages make more than 2^64 - 1") \
    X(15, VJ_REFUSED_BLOCK, "the block is not collectible, or there is no such block") \
    X(16, VJ_REFUSED_PAGE_DUE, "the page due is not there, or is not clean") \
    X(17, VJ_REFUSED_SHORT_LIST, "a lent list is too short") \
    X(18, VJ_REFUSED_NOT_SET, "the valve is not set") \
    X(19, VJ_REFUSED_RECORD, "the wanted valves do not rise strictly, or one is above 32767") \
    X(20, VJ_REFUSED_RECORDS, "there are more than 192 wanted records") \
    X(21, VJ_REFUSED_SPAN, "the ends of the span are out of order or past the log") \
    X(22, VJ_REFUSED_TOUCHED, "more than 192 valves are touched in the span") \
    X(23, VJ_REFUSED_BUFFER_FULL, "a group has more entries than the buffer has places left") \
    X(24, VJ_REFUSED_BUFFER_HOLDS, "the buffer holds a group where an append, a commit or a collection is begun") \
    X(25, VJ_REFUSED_SHORT_GROUPS, "the lent list is too short for all groups that mattered") \
    X(28, VJ_REFUSED_EARLIER, "the medium shows an earlier moment than the mark filed last: it has faded or was formatted, or is another one") \
    X(29, VJ_REFUSED_OTHER, "the mark filed last is not of this medium, or the medium was formatted since")

/* Their names, and VJ_ACCEPTED for no refusal. */
#define VJ_REFUSAL_NAME(number, name, text) , name = number
enum { VJ_ACCEPTED = 0 VJ_REFUSALS(VJ_REFUSAL_NAME) };
#undef VJ_REFUSAL_NAME

/* The text of a number: a literal, which the caller leaves as it is. */
static inline const char *vj_refusal_text(uint8_t number)
{
    switch (number) {
    case VJ_ACCEPTED:
        return "accepted";
#define VJ_REFUSAL_TEXT(number, name, text) \
    case name: \
        return text;
        VJ_REFUSALS(VJ_REFUSAL_TEXT)
#undef VJ_REFUSAL_TEXT
    default:
        return "no such number";
    }
}

/* The most bytes of stack that each call takes on x86-64, whatever is lent to it, with what the caller puts there for its arguments and its
 * answer: as a C program compiled by gcc 12 with -O2 was seen to take on media of 256 blocks, full ones of 45 shapes among them, and with states
 * in which nothing, an append, a commit, a collection or a flush is pending, with at least 256 bytes added, rounded up to a multiple of 1024.
 * tests/tests/stack.rs measures it anew, and fails where a call takes more than is said here, or over 2048 bytes less. VJ_STACK_MOST is enough
 * for every call. */
enum {
    VJ_STACK_RECOVER = 32768,
    VJ_STACK_LOG = 28672,
    VJ_STACK_READER = 28672,
    VJ_STACK_CHANGE = 1024,
    VJ_STACK_NEWS = 28672,
    VJ_STACK_EFFECT = 68608,
    VJ_STACK_MATTERED = 77824,
    VJ_STACK_PAGE = 1024,
    VJ_STACK_OPENING = 11264,
    VJ_STACK_SETTINGS = 13312,
    VJ_STACK_PICK = 13312,
    VJ_STACK_SURVEY = 16384,
    VJ_STACK_AVAILABLE = 11264,
    VJ_STACK_WORD = 15360,
    VJ_STACK_WANTED = 29696,
    VJ_STACK_NEXT = 15360,
    VJ_STACK_FORMAT = 9216,
    VJ_STACK_APPEND = 23552,
    VJ_STACK_COMMIT = 23552,
    VJ_STACK_COLLECT = 23552,
    VJ_STACK_FLUSH = 27648,
    VJ_STACK_BUFFER = 21504,
    VJ_STACK_STEP = 33792,
    VJ_STACK_MOST = 77824
};

/* A list of at most VJ_MOST_VALVES numbers under keys, the number under keys[i] in vals[i]. In the index: a valve and the address of its entry,
 * 24 x page + place. In a group: a key and a word; the key is the valve, or valve + VJ_REMOVAL. */
typedef struct VjCells {
    size_t count;                  /* how many are in the list, from the first on */
    uint16_t keys[VJ_MOST_VALVES]; /* places from `count` on mean nothing */
    uint64_t vals[VJ_MOST_VALVES]; /* the same */
} VjCells;

/* Where the journal writes next. */
typedef struct VjHead {
    size_t blocks;   /* how many blocks the medium has */
    size_t block;    /* the head block, from 0 */
    size_t next;     /* the next page in it, 1 to 16; at 16 the block is used up */
    uint64_t serial; /* the next serial */
    uint64_t base;   /* the first serial of the base */
} VjHead;

/* The values of VjState.operation; any other names no operation. */
enum {
    VJ_IDLE = 0,    /* nothing is pending; progress means nothing */
    VJ_APPEND = 1,  /* an append; progress is the pages written */
    VJ_COMMIT = 2,  /* a commit; progress is the pages written */
    VJ_COLLECT = 3, /* a collection; progress is the block */
    VJ_FORMAT = 4,  /* formatting; progress is the blocks erased */
    VJ_FLUSH = 5    /* a flush of the lent buffer; progress means nothing */
};

/* What the journal keeps between calls. */
typedef struct VjState {
    VjHead head;
    VjCells index;       /* the valves that are set, ascending, each with the address of its entry */
    VjCells group;       /* the entries of a pending append; else it means nothing */
    uint16_t pages[4];   /* the pages that a pending append has written, the first `progress`; else they mean nothing */
    uint8_t operation;   /* what is pending: VJ_IDLE to VJ_FLUSH */
    uint64_t progress;   /* how far it is, or its block */
    uint8_t erased[VJ_MOST_BLOCKS]; /* for each block 1 where a step erased it since recovery or since formatting began; any other number is
                                     * no record */
} VjState;

/* What vj_recover answers. */
typedef struct VjRecovered {
    uint8_t number; /* 0, or the number of the refusal */
    VjState state;  /* the state, with nothing pending; on a refusal it means nothing */
} VjRecovered;

/* What vj_log, vj_mattered and vj_settings answer. */
typedef struct VjCount {
    uint8_t number; /* 0, or the number of the refusal */
    size_t count;   /* how many changes the log has, how many groups mattered, or how many valves are set; on a refusal 0 */
} VjCount;

/* A place in the log: what a program keeps between two calls of vj_change, and all that it needs of the log. Its numbers are the library's. */
typedef struct VjPlace {
    uint8_t number; /* 0, or the number of the refusal; with a refusal vj_change gives no more */
    uint8_t entry;  /* the entry that comes next, */
    uint16_t page;  /* the page that it stands on, */
    uint32_t group; /* and the number of its group */
} VjPlace;

/* What vj_change answers. */
typedef struct VjChange {
    uint8_t found;  /* 1 where there is a change; 0 for no more, and then key, group and word are 0 */
    uint16_t key;   /* the valve, or valve + VJ_REMOVAL */
    uint32_t group; /* the number of its group, the first complete group in the log being 0 */
    uint64_t word;  /* the word */
    VjPlace next;   /* the place after the change; for no more, the place that was asked */
} VjChange;

/* What vj_news answers: base, serial and count are the mark of this reading, to be filed with it. On a refusal all but the number is 0. */
typedef struct VjNews {
    uint8_t number;  /* 0, or the number of the refusal */
    size_t first;    /* the first change of the log that is new, counted from 0; equal to count where nothing is new */
    uint64_t base;   /* the base's first serial, */
    uint64_t serial; /* the next serial, */
    size_t count;    /* and how many changes the log has */
} VjNews;

/* What vj_effect answers. */
typedef struct VjEffect {
    uint8_t number; /* 0, or the number of the refusal */
    VjCells cells;  /* the effect: keys as stored and words, ascending by valve, at most VJ_MOST_VALVES; on a refusal their count is 0 */
} VjEffect;

/* A part of the medium. */
typedef struct VjPart {
    size_t offset; /* its first byte */
    size_t length; /* how many bytes it has */
} VjPart;

/* What vj_opening answers. */
typedef struct VjWord {
    uint8_t number; /* 0, or the number of the refusal */
    uint64_t word;  /* the valve's word; on a refusal 0 */
} VjWord;

/* What vj_word answers: where the eight bytes of a valve's word stand, little-endian. */
typedef struct VjWordPlace {
    uint8_t number;    /* 0, or the number of the refusal */
    uint8_t in_buffer; /* 1 where they stand in the lent buffer, 0 where in the medium; on a refusal 0 */
    size_t offset;     /* the first of them; on a refusal 0 */
    size_t length;     /* 8; on a refusal 0 */
} VjWordPlace;

/* What vj_pick answers. */
typedef struct VjPick {
    uint8_t number; /* 0, or the number of the refusal */
    uint8_t found;  /* 1 exactly where a block is picked; on a refusal 0 */
    uint64_t block; /* the block, from 0; where none is picked 0 */
} VjPick;

/* What vj_survey answers. */
typedef struct VjSurvey {
    uint8_t number;                      /* 0, or the number of the refusal */
    uint16_t counts[3 * VJ_MOST_BLOCKS]; /* for block b from 3 x b on: its whole, clean and spoilt pages; 0 past the last block, and
                                          * all of them on a refusal */
} VjSurvey;

/* What vj_available answers. */
typedef struct VjPages {
    uint8_t number; /* 0, or the number of the refusal */
    uint64_t pages; /* how many pages; on a refusal 0 */
} VjPages;

/* A valve and its word. */
typedef struct VjRecord {
    uint16_t valve;
    uint64_t word;
} VjRecord;

/* What vj_wanted answers. */
typedef struct VjWanted {
    uint8_t number; /* 0, or the number of the refusal */
    uint8_t found;  /* 1 exactly where at most 96 valves differ; on a refusal 0 */
    VjCells group;  /* then the group, as vj_append takes it: keys and vals, each `count` long, at most 96; else its count is 0 */
} VjWanted;

/* What vj_next answers. */
typedef struct VjNext {
    uint8_t number;    /* 0, or the number of the refusal */
    uint8_t operation; /* VJ_APPEND, VJ_COMMIT or VJ_COLLECT, the call to make next; on a refusal 0 */
    size_t block;      /* the block of a collection, from 0; else 0 */
} VjNext;

/* What vj_format, vj_append, vj_commit, vj_collect and vj_flush answer. */
typedef struct VjBegun {
    uint8_t number; /* 0, or the number of the refusal */
    VjState state;  /* the state with the operation pending; on a refusal every field as given; where vj_format refuses, 0 in every place */
} VjBegun;

/* The values of VjStepped.touched. */
enum {
    VJ_PAGE = 1, /* a page was programmed: 256 bytes from byte 256 x at on */
    VJ_BLOCK = 2 /* a block was erased to FFh: 4096 bytes from byte 4096 x at on */
};

/* What vj_step answers. */
typedef struct VjStepped {
    uint8_t number;   /* 0, or the number of the refusal */
    uint8_t touched;  /* VJ_PAGE or VJ_BLOCK; on a refusal 0 */
    uint8_t finished; /* 1 exactly where the operation is finished; on a refusal 0 */
    uint64_t at;      /* the number of the page or the block in the medium, from 0; on a refusal 0 */
    VjState state;    /* the state after the step; on a refusal every field as given */
} VjStepped;

/* Recovers the state from the medium, which stays as it is: at the start, and after a cut, with the bytes that the chip then has. Refuses 1 to
 * 6. */
VjRecovered vj_recover(const uint8_t *medium, size_t medium_length);

/* Reads the log into three lists: for each change in order the key and the word, as stored, and the number of its group, the first complete
 * group in the log being 0; a removal's key is valve + VJ_REMOVAL. Lists of VJ_BLOCK_ENTRIES places for each block of the medium are long
 * enough. Places past the log stay as they were, and on a refusal all do. The three may have any lengths. Refuses 1 to 6, and 17 where any of
 * them is too short. */
VjCount vj_log(const uint8_t *medium, size_t medium_length, uint16_t *keys, size_t keys_length, uint64_t *words, size_t words_length,
    uint32_t *groups, size_t groups_length);

/* A place at the start of the log, for vj_change; its number is 0, or that of the refusal. Refuses 1 to 6. */
VjPlace vj_reader(const uint8_t *medium, size_t medium_length);

/* The change at a place, and the place after it: the log change by change, with no list. From the place that vj_reader gives, each call with the
 * place that the last one gave, the changes are those of vj_log, keys, words and numbers of groups, in order; then there is no more, however often
 * it is asked. The medium is lent as it was to vj_reader: a place means nothing once a step was made. A place of any content is answered, one that
 * the library did not give with any change of the medium's pages or none. Never refuses. */
VjChange vj_change(const uint8_t *medium, size_t medium_length, VjPlace place);

/* From which change on the log is new to an archive: base, serial and count are the mark that it filed last, as vj_news gave it then, or zeros where
 * nothing was filed since the medium was formatted. Where every commit since then came after a filing of the whole log (vj_commit), the changes from place
 * `first` of vj_log's lists on are those that were not filed. Every mark is answered. Refuses 1 to 6; 28 where the next serial is smaller than the filed
 * one: the medium shows an earlier moment, was formatted since, or is another one; and 29 where it is not, but base, next serial and count cannot come after
 * those filed: formatted since, or another one. The caller compares what the call is not given: the medium's length, and the changes before `first` with
 * those filed. A medium that was formatted, and had the same changes made again, cannot be told from the one before (docs/USING.md). */
VjNews vj_news(const uint8_t *medium, size_t medium_length, uint64_t base, uint64_t serial, size_t count);

/* What a span of the log did: for each valve that the groups from number `first` up to, not including, number `second` touch, ascending, its
 * last word, or its removal with the key valve + VJ_REMOVAL and word 0. Groups are numbered as vj_log numbers them; equal ends are an empty
 * span, which touches no valve. Refuses 1 to 6, 21 where the ends are out of order or past the log, and 22 where more than VJ_MOST_VALVES
 * valves are touched. */
VjEffect vj_effect(const uint8_t *medium, size_t medium_length, uint32_t first, uint32_t second);

/* Lists the groups that mattered, by the numbers that vj_log gives them: each without which the log would leave some valve otherwise, that is
 * with another last word, with a removal in the place of a word, or not touched at all. Fewest entries first, and the earlier first where two
 * have as many; each once. A list of 256 places for each block of the medium is long enough. Places past them stay as they were, and on a
 * refusal all do. Refuses 1 to 6, and 25 where the list is too short for all of them. */
VjCount vj_mattered(const uint8_t *medium, size_t medium_length, uint32_t *groups, size_t groups_length);

/* The part of the medium that is page p, counted from 0: 256 bytes from byte 256 x p on. Where the medium, of any length, lacks one of
 * these bytes, offset and length are 0. Never refuses. */
VjPart vj_page(const uint8_t *medium, size_t medium_length, size_t p);

/* The calls from here on, vj_format aside, take a state with its medium. A state of any content may be given: one that does not fit the
 * medium, or whose operation names none, is refused with 7. */

/* The next eight calls read a state against its medium; both stay as they are. All but vj_word and vj_next leave the write buffer aside. */

/* The word of a valve on the medium. Refuses 1, 7, 18 and, where the valve's address lacks its entry, 6, in this order. */
VjWord vj_opening(const uint8_t *medium, size_t medium_length, VjState state, uint16_t valve);

/* All valves that are set, ascending, each with its word on the medium, into two lists: what vj_opening gives of each, in one call. `count` is
 * how many valves are set. Lists of VJ_MOST_VALVES places are long enough, and the two may have any lengths. Places past the settings stay as
 * they were, and on a refusal all do. Refuses 1, 7, 6 where the address of any valve that is set lacks its entry, and 17 where either list is
 * too short, in this order. */
VjCount vj_settings(const uint8_t *medium, size_t medium_length, VjState state, uint16_t *valves, size_t valves_length, uint64_t *words,
    size_t words_length);

/* The block to collect, if there is one. Refuses 1 and 7. */
VjPick vj_pick(const uint8_t *medium, size_t medium_length, VjState state);

/* The pages of each block, counted by what they are. Refuses 1 and 7. */
VjSurvey vj_survey(const uint8_t *medium, size_t medium_length, VjState state);

/* The pages that can still be written: those left in the head block, and sixteen for each wholly clean block other than the head, whether
 * or not a step erased it. Refuses 1 and 7. */
VjPages vj_available(const uint8_t *medium, size_t medium_length, VjState state);

/* Where the word of a valve stands: in the lent buffer, where the last entry there that names the valve counts, else in the medium. So a
 * change that is buffered shows before its flush. Refuses 1, 7, 18 (also where that entry removes the valve) and, where the medium is
 * asked and the valve's address lacks its entry, 6, in this order. */
VjWordPlace vj_word(const uint8_t *medium, size_t medium_length, VjState state, const uint8_t *buffer, size_t buffer_length, uint16_t valve);

/* The group that leads from the present settings, those that vj_opening gives, to the wanted ones: removals of the valves that are set and not
 * wanted, ascending, then settings of the wanted valves that do not stand so, ascending. Appended, it leaves exactly the wanted settings, and
 * no group with fewer entries does. It has no entry where nothing differs (vj_append refuses such a group with 10). Where more than 96 valves
 * differ there is none: the change takes more than one group. The records may be any, and as many as they are. Refuses 1, 7, 19, 20, 6 where the
 * address of any valve that is set lacks its entry, and 11 where valve 0 would have to be set, in this order. A valve 0 that an old medium has set
 * may be wanted with the word that it has, or not wanted, which removes it.
 * Neither what is pending nor what the buffer holds is counted: finish the operation and flush the buffer first, ask then, and append the group
 * before anything else changes a valve. */
VjWanted vj_wanted(const uint8_t *medium, size_t medium_length, VjState state, const VjRecord *records, size_t records_length);

/* Names the next operation of a box that keeps itself able to write; it begins nothing. The group, given as to vj_append, is the one that the caller
 * would append, and `filed` says whether every change in the log is filed, so that a commit may empty it. Named is
 *   - the append of the group, unless vj_append would answer 13;
 *   - else a commit, where a whole page is newer than the base and the log is filed;
 *   - else the collection of the block that vj_pick names.
 * The caller makes the call named and its steps, and asks again, until the append is named. Refuses as the call that it names, so that a call named is
 * accepted, and 15 where a collection is due and vj_pick names no block. 24 comes before all that: a buffer that holds a group is flushed first.
 *
 * Where vj_append answers 13 with VJ_RESERVE_PAGES pages or more available, nothing pending, the buffer empty, 16 serials left and the log filed, at
 * most one commit and one collection are named, and then the append of that same group, whatever the number of blocks. A finished append leaves as
 * many pages. Fewer can be available after a power cut, or after commits that were not named. Then the commit that is due may answer 13, and goes on
 * answering it, though a block could be collected without any page: say `filed` false, and the collection is named in its place; with the pages that
 * it frees, say true again. Where no block can be collected either, the journal can only be read or formatted. */
VjNext vj_next(const uint8_t *medium, size_t medium_length, VjState state, const uint8_t *buffer, size_t buffer_length, const uint16_t *keys,
    size_t keys_length, const uint64_t *words, size_t words_length, bool filed);

/* The next five calls begin an operation. The medium stays as it is: vj_step does the work. */

/* Begins formatting. It takes no state, so it drops whatever was pending. A cut inside it promises nothing: it is begun again. Refuses 1. */
VjBegun vj_format(const uint8_t *medium, size_t medium_length);

/* Begins an append of 1 to 96 entries, in two lists of one length: the key is the valve, or valve + VJ_REMOVAL with the word 0.
 * The entries are kept in the state; the lists are not used again. 16 pages must stay available. Refuses 1, 7, 8, 24, 10, 11, 12, 13 and
 * 14, in this order. */
VjBegun vj_append(const uint8_t *medium, size_t medium_length, VjState state, const uint8_t *buffer, size_t buffer_length,
    const uint16_t *keys, size_t keys_length, const uint64_t *words, size_t words_length);

/* Begins a commit: a new base of the valves that are set. A finished commit empties the log, also of changes that nobody has filed. So it is
 * begun only where nothing was appended or flushed since the reading of the log that is filed durably. Where vj_append or vj_buffer answers
 * 13, vj_next names the commit or the collection that makes pages free. Refuses 1, 7, 8, 24, 13 and 14, in this order. */
VjBegun vj_commit(const uint8_t *medium, size_t medium_length, VjState state, const uint8_t *buffer, size_t buffer_length);

/* Begins the collection of a block, counted from 0: its live entries are moved, then it is erased. Refuses 1, 7, 8, 24, 15, 6 where a live
 * entry of the block is not there, 13 and 14, in this order. */
VjBegun vj_collect(const uint8_t *medium, size_t medium_length, VjState state, const uint8_t *buffer, size_t buffer_length, uint64_t block);

/* Begins a flush of the groups in the buffer: one page. 16 pages must stay available. The buffer stays as it is until the step that
 * programs the page. Refuses 1, 7, 8, 10 where the buffer is empty, 11, 12, 13 and 14, in this order. */
VjBegun vj_flush(const uint8_t *medium, size_t medium_length, VjState state, const uint8_t *buffer, size_t buffer_length);

/* Puts a group of 1 to 16 entries, given as to vj_append, after those that the buffer holds; 16 entries fill it. The state stays as it is
 * and is the one to give to the next call. Answers 0, or the number of the refusal, and then every byte of the buffer stays. 12 is counted
 * over the entries of the buffer, then those of the group; 13 and 14 are asked as its flush would meet them. Refuses 1, 7, 8, 10, 11, 12,
 * 23, 13 and 14, in this order. */
uint8_t vj_buffer(const uint8_t *medium, size_t medium_length, VjState state, uint8_t *buffer, size_t buffer_length, const uint16_t *keys,
    size_t keys_length, const uint64_t *words, size_t words_length);

/* Makes one device step of the pending operation: it programs one clean page, or erases one block. No other byte of the medium changes,
 * and on a refusal none does. A flush programs the buffer as it is lent to the step that programs its page, and that step leaves the buffer
 * all FFh; every other step, and every refusal, leaves the buffer as it is.
 *
 * A block that reads clean can be weak if its erase was cut. So where the next page of an append, a commit, a collection or a flush is the
 * first of a new head block and the state has no record that this block was erased, the step erases the block: it touches VJ_BLOCK, the
 * operation is not finished, and the next step programs the page. After a recovery no block has the record; formatting erases them all. A
 * driver carries this erase to the chip like any other, though the block reads FFh already.
 *
 * Refuses 1, 7, 9, 6 where an entry to move is not there, 14 for a page to program, and 16, in this order; a step that erases only 1, 7
 * and 9. */
VjStepped vj_step(uint8_t *medium, size_t medium_length, VjState state, uint8_t *buffer, size_t buffer_length);

/* The library's structs byte by byte: the size of each, and where each field begins and how many bytes it has. The build stops here where the
 * compiler lays out one of them otherwise. */
#if defined(__cplusplus) && __cplusplus >= 201103L
#define VJ_ASSERT(name, condition) static_assert(condition, #name " is laid out otherwise in the library");
#elif defined(__STDC_VERSION__) && __STDC_VERSION__ >= 201112L
#define VJ_ASSERT(name, condition) _Static_assert(condition, #name " is laid out otherwise in the library");
#else
#define VJ_ASSERT(name, condition) typedef char name##_is_laid_out_otherwise_in_the_library[(condition) ? 1 : -1];
#endif
#define VJ_SIZE(type, bytes) VJ_ASSERT(type, sizeof(type) == bytes)
#define VJ_FIELD(type, field, at, bytes) VJ_ASSERT(type##_##field, offsetof(type, field) == at && sizeof(((type *)0)->field) == bytes)
VJ_SIZE(VjCells, 1928) VJ_FIELD(VjCells, count, 0, 8) VJ_FIELD(VjCells, keys, 8, 384) VJ_FIELD(VjCells, vals, 392, 1536)
VJ_SIZE(VjHead, 40) VJ_FIELD(VjHead, blocks, 0, 8) VJ_FIELD(VjHead, block, 8, 8) VJ_FIELD(VjHead, next, 16, 8)
    VJ_FIELD(VjHead, serial, 24, 8) VJ_FIELD(VjHead, base, 32, 8)
VJ_SIZE(VjState, 4176) VJ_FIELD(VjState, head, 0, 40) VJ_FIELD(VjState, index, 40, 1928) VJ_FIELD(VjState, group, 1968, 1928)
    VJ_FIELD(VjState, pages, 3896, 8) VJ_FIELD(VjState, operation, 3904, 1) VJ_FIELD(VjState, progress, 3912, 8)
    VJ_FIELD(VjState, erased, 3920, 256)
VJ_SIZE(VjRecovered, 4184) VJ_FIELD(VjRecovered, number, 0, 1) VJ_FIELD(VjRecovered, state, 8, 4176)
VJ_SIZE(VjCount, 16) VJ_FIELD(VjCount, number, 0, 1) VJ_FIELD(VjCount, count, 8, 8)
VJ_SIZE(VjPlace, 8) VJ_FIELD(VjPlace, number, 0, 1) VJ_FIELD(VjPlace, entry, 1, 1) VJ_FIELD(VjPlace, page, 2, 2) VJ_FIELD(VjPlace, group, 4, 4)
VJ_SIZE(VjChange, 24) VJ_FIELD(VjChange, found, 0, 1) VJ_FIELD(VjChange, key, 2, 2) VJ_FIELD(VjChange, group, 4, 4)
    VJ_FIELD(VjChange, word, 8, 8) VJ_FIELD(VjChange, next, 16, 8)
VJ_SIZE(VjNews, 40) VJ_FIELD(VjNews, number, 0, 1) VJ_FIELD(VjNews, first, 8, 8) VJ_FIELD(VjNews, base, 16, 8)
    VJ_FIELD(VjNews, serial, 24, 8) VJ_FIELD(VjNews, count, 32, 8)
VJ_SIZE(VjEffect, 1936) VJ_FIELD(VjEffect, number, 0, 1) VJ_FIELD(VjEffect, cells, 8, 1928)
VJ_SIZE(VjPart, 16) VJ_FIELD(VjPart, offset, 0, 8) VJ_FIELD(VjPart, length, 8, 8)
VJ_SIZE(VjWord, 16) VJ_FIELD(VjWord, number, 0, 1) VJ_FIELD(VjWord, word, 8, 8)
VJ_SIZE(VjWordPlace, 24) VJ_FIELD(VjWordPlace, number, 0, 1) VJ_FIELD(VjWordPlace, in_buffer, 1, 1) VJ_FIELD(VjWordPlace, offset, 8, 8)
    VJ_FIELD(VjWordPlace, length, 16, 8)
VJ_SIZE(VjPick, 16) VJ_FIELD(VjPick, number, 0, 1) VJ_FIELD(VjPick, found, 1, 1) VJ_FIELD(VjPick, block, 8, 8)
VJ_SIZE(VjSurvey, 1538) VJ_FIELD(VjSurvey, number, 0, 1) VJ_FIELD(VjSurvey, counts, 2, 1536)
VJ_SIZE(VjPages, 16) VJ_FIELD(VjPages, number, 0, 1) VJ_FIELD(VjPages, pages, 8, 8)
VJ_SIZE(VjRecord, 16) VJ_FIELD(VjRecord, valve, 0, 2) VJ_FIELD(VjRecord, word, 8, 8)
VJ_SIZE(VjWanted, 1936) VJ_FIELD(VjWanted, number, 0, 1) VJ_FIELD(VjWanted, found, 1, 1) VJ_FIELD(VjWanted, group, 8, 1928)
VJ_SIZE(VjNext, 16) VJ_FIELD(VjNext, number, 0, 1) VJ_FIELD(VjNext, operation, 1, 1) VJ_FIELD(VjNext, block, 8, 8)
VJ_SIZE(VjBegun, 4184) VJ_FIELD(VjBegun, number, 0, 1) VJ_FIELD(VjBegun, state, 8, 4176)
VJ_SIZE(VjStepped, 4192) VJ_FIELD(VjStepped, number, 0, 1) VJ_FIELD(VjStepped, touched, 1, 1) VJ_FIELD(VjStepped, finished, 2, 1)
    VJ_FIELD(VjStepped, at, 8, 8) VJ_FIELD(VjStepped, state, 16, 4176)
#undef VJ_FIELD
#undef VJ_SIZE
#undef VJ_ASSERT

#ifdef __cplusplus
}
#endif

#endif
