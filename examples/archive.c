/* The archive's morning: `archive CHIP FOLDER` reads a chip's image, a file of 4 to 256 blocks, files in the folder what is new, and commits.
 * In the folder stand
 *   changes.csv   every change once, in order: a row `base,group,valve,word` each; a removal has no word
 *   settings.csv  the valves that are set, a row `valve,word` each, as they were filed last
 *   mark          the medium's length; of the log that was filed last the base, the next serial and the number of changes; and from
 *                 which byte of changes.csv up to which its rows stand
 * The rows are durable before the mark is written, and the mark before the commit begins; settings and mark take their place at one
 * moment each, by a rename. Rows behind the mark's end are of a morning that was cut off: they are dropped, and filed again. So the
 * program may be killed or lose its power anywhere. It is run again, and each change is filed once.
 * `archive new CHIP FOLDER` starts a mark: once for a new folder, and each time the chip was formatted or is another one, before
 * anything is appended to it. The rows go on.
 * The folder is locked meanwhile. Nobody else writes to the chip while the program runs, and nobody else commits.
 *
 * Exit status: 0 done. 1 somebody should look: the medium is refused or not the one that was filed, and nothing was filed or
 * committed; or its log is filed and the commit refused. 2 a file, the chip or a standard stream failed: run it again.
 *
 *   tools/build journal_archive
 *   cc -std=c99 -Wall -Wextra -I include examples/archive.c target/staticlib/libjournal_c.a -o target/archive_c
 */
#define _XOPEN_SOURCE 700
#include <errno.h>
#include <fcntl.h>
#include <inttypes.h>
#include <stdarg.h>
#include <stdio.h>
#include <stdlib.h>
#include <sys/file.h>
#include <sys/stat.h>
#include <unistd.h>
#include "valve_journal_run.h"

enum { CHANGES = VJ_MOST_BLOCKS * VJ_BLOCK_ENTRIES, ROW = 64, MARK = 256 };

static int chip, folder; /* the two as open files */
static uint8_t medium[VJ_MOST_BLOCKS * VJ_BLOCK_BYTES];
static VjJournal journal;
static uint16_t keys[CHANGES];
static uint64_t words[CHANGES];
static uint32_t groups[CHANGES];
static char rows[(size_t)CHANGES * ROW], filed[(size_t)CHANGES * ROW];

/* What is filed. */
typedef struct Mark {
    uint64_t length, base, serial, changes, begin, end;
} Mark;

/* Ends the program with a message; status 2 says which error it was. */
static void stop(int status, const char *form, ...)
{
    int error = errno;
    va_list rest;
    va_start(rest, form);
    fputs("archive: ", stderr);
    vfprintf(stderr, form, rest);
    va_end(rest);
    fprintf(stderr, status == 2 ? ": %s\n" : "\n", strerror(error));
    exit(status);
}

/* Writes all the bytes from a place on, durably: 0 where that is done. */
static int put(int file, const void *bytes, size_t length, uint64_t at)
{
    for (size_t done = 0; done < length;) {
        ssize_t n = pwrite(file, (const char *)bytes + done, length - done, (off_t)(at + done));
        if (n == 0)
            errno = EIO;
        if (n <= 0 && errno != EINTR)
            return -1;
        done += n > 0 ? (size_t)n : 0;
    }
    return fsync(file);
}

/* Reads so many bytes from a place on: 0 where all are there. */
static int get(int file, void *bytes, size_t length, uint64_t at)
{
    for (size_t done = 0; done < length;) {
        ssize_t n = pread(file, (char *)bytes + done, length - done, (off_t)(at + done));
        if (n == 0)
            errno = EIO; /* it ends before */
        if (n <= 0 && errno != EINTR)
            return -1;
        done += n > 0 ? (size_t)n : 0;
    }
    return 0;
}

/* The driver. What is read was made durable before, also where the program was killed between a step's write and its fsync. */
static int chip_read(void *user, uint8_t *bytes, size_t length)
{
    (void)user;
    return fsync(chip) != 0 ? -1 : get(chip, bytes, length, 0);
}

static int chip_program(void *user, size_t page, const uint8_t *bytes)
{
    (void)user;
    return put(chip, bytes, VJ_PAGE_BYTES, VJ_PAGE_BYTES * page);
}

static int chip_erase(void *user, size_t block)
{
    uint8_t clean[VJ_BLOCK_BYTES];
    (void)user;
    memset(clean, 0xFF, sizeof clean);
    return put(chip, clean, sizeof clean, VJ_BLOCK_BYTES * block);
}

/* How many bytes an open file has. */
static uint64_t size_of(int file, const char *name)
{
    struct stat about;
    if (fstat(file, &about) != 0)
        stop(2, "%s", name);
    return (uint64_t)about.st_size;
}

/* Puts a text in the place of a file of the folder, durably and at one moment. */
static void replace(const char *name, const char *temporary, const char *text, size_t length)
{
    int file = openat(folder, temporary, O_WRONLY | O_CREAT | O_TRUNC, 0666);
    if (file < 0 || put(file, text, length, 0) != 0)
        stop(2, "%s", temporary);
    close(file);
    if (renameat(folder, temporary, folder, name) != 0 || fsync(folder) != 0)
        stop(2, "%s", name);
}

#define MARK_FORM(number) \
    "length %" number "\nbase %" number "\nserial %" number "\nchanges %" number "\nbegin %" number "\nend %" number "\n"

/* The mark as a text; its length. */
static size_t mark_text(char *text, const Mark *m)
{
    return (size_t)snprintf(text, MARK, MARK_FORM(PRIu64), m->length, m->base, m->serial, m->changes, m->begin, m->end);
}

static void write_mark(const Mark *mark)
{
    char text[MARK];
    size_t length = mark_text(text, mark);
    replace("mark", "mark.new", text, length);
}

/* Whether there is a mark. Just what mark_text makes is one. */
static int read_mark(Mark *m)
{
    char text[MARK] = "", same[MARK] = "";
    int file = openat(folder, "mark", O_RDONLY);
    if (file < 0 && errno == ENOENT)
        return 0;
    if (file < 0)
        stop(2, "mark");
    uint64_t length = size_of(file, "mark");
    if (length >= MARK)
        stop(1, "the file mark is not a mark");
    if (get(file, text, (size_t)length, 0) != 0)
        stop(2, "mark");
    close(file);
    int n = sscanf(text, MARK_FORM(SCNu64), &m->length, &m->base, &m->serial, &m->changes, &m->begin, &m->end);
    if (n != 6 || mark_text(same, m) != length || memcmp(text, same, MARK) != 0 || m->begin > m->end || m->end - m->begin > sizeof filed)
        stop(1, "the file mark is not a mark");
    return 1;
}

/* Reads the chip, of so many bytes, and recovers. */
static void open_chip(const char *name, uint64_t length)
{
    size_t most = sizeof medium;
    vj_run_init(&journal, medium, length > most ? 0 : (size_t)length, (VjDriver){chip_read, chip_program, chip_erase, NULL});
    uint8_t number = vj_run_open(&journal);
    if (number == VJ_RUN_FAILED)
        stop(2, "%s", name);
    if (number != VJ_ACCEPTED)
        stop(1, "%s is refused with %u: %s; nothing was written: keep a copy of it", name, (unsigned)number, vj_run_text(number));
}

/* What is new on the chip; ends the program where it is not the medium that was filed. */
static VjNews look(const char *name, const Mark *mark)
{
    if (journal.length != mark->length)
        stop(1, "%s has %zu bytes, and the medium that was filed %" PRIu64 ": cut off, or another one", name, journal.length, mark->length);
    VjNews found = vj_news(journal.medium, journal.length, mark->base, mark->serial, (size_t)mark->changes);
    if (found.number == VJ_REFUSED_EARLIER)
        stop(1, "%s is of an earlier moment than the last filing, or another medium, or formatted since (28)", name);
    if (found.number == VJ_REFUSED_OTHER)
        stop(1, "%s is another medium than the one filed last, or formatted since (29)", name);
    if (found.number != VJ_ACCEPTED)
        stop(1, "%s is refused with %u: %s", name, (unsigned)found.number, vj_refusal_text(found.number));
    return found;
}

/* The log as rows: how many bytes they have. The row of change `first` begins at *start. */
static size_t write_rows(const VjNews *found, size_t *start)
{
    size_t used = 0;
    VjCount log = vj_log(journal.medium, journal.length, keys, CHANGES, words, CHANGES, groups, CHANGES);
    if (log.number != VJ_ACCEPTED)
        stop(1, "the log is refused with %u: %s", (unsigned)log.number, vj_refusal_text(log.number));
    for (size_t i = 0; i < log.count; i++) {
        if (i == found->first)
            *start = used;
        used += (size_t)snprintf(rows + used, ROW, "%" PRIu64 ",%" PRIu32 ",%d,", found->base, groups[i], keys[i] & VJ_LAST_VALVE);
        used += (size_t)snprintf(rows + used, ROW, keys[i] < VJ_REMOVAL ? "%" PRIu64 "\n" : "\n", words[i]);
    }
    if (found->first == log.count)
        *start = used;
    return used;
}

/* Files the settings: how many valves are set. */
static size_t file_settings(void)
{
    static uint16_t valves[VJ_MOST_VALVES];
    static uint64_t openings[VJ_MOST_VALVES];
    static char text[VJ_MOST_VALVES * ROW];
    size_t used = 0;
    VjCount set = vj_settings(journal.medium, journal.length, journal.state, valves, VJ_MOST_VALVES, openings, VJ_MOST_VALVES);
    if (set.number != VJ_ACCEPTED)
        stop(1, "the settings are refused with %u: %s", (unsigned)set.number, vj_refusal_text(set.number));
    for (size_t i = 0; i < set.count; i++)
        used += (size_t)snprintf(text + used, ROW, "%d,%" PRIu64 "\n", valves[i], openings[i]);
    replace("settings.csv", "settings.csv.new", text, used);
    return set.count;
}

/* Files what is new: the rows, then the settings, then the mark. Where the base is the one filed last, its rows are checked before. */
static void file_news(const char *name, const Mark *old, const VjNews *found)
{
    size_t start = 0, used = write_rows(found, &start);
    uint64_t begin = found->base == old->base ? old->begin : old->end;
    size_t same = (size_t)(old->end - begin); /* so many bytes of this base's rows are filed */
    int csv = openat(folder, "changes.csv", O_RDWR | O_CREAT, 0666);
    if (csv < 0)
        stop(2, "changes.csv");
    if (size_of(csv, "changes.csv") < old->end)
        stop(1, "changes.csv ends before byte %" PRIu64 ", up to which the mark says that it is filed", old->end);
    if (get(csv, filed, same, begin) != 0)
        stop(2, "changes.csv");
    if (start != same || memcmp(rows, filed, same) != 0)
        stop(1, "%s has other changes than those that were filed of the same base: another medium, or formatted since", name);
    if (ftruncate(csv, (off_t)old->end) != 0 || put(csv, rows + start, used - start, old->end) != 0)
        stop(2, "changes.csv");
    close(csv);
    size_t set = file_settings(); /* the folder is synced here too: a changes.csv that is new is listed durably before the mark */
    Mark mark = {journal.length, found->base, found->serial, found->count, begin, begin + used};
    write_mark(&mark);
    printf("%zu changes filed, %zu valves set\n", found->count - found->first, set);
}

/* Commits, where there is something in the log: it is filed. */
static void commit(const char *name, const VjNews *found)
{
    if (found->count == 0)
        return;
    uint8_t number = vj_run_commit(&journal);
    if (number == VJ_RUN_FAILED)
        stop(2, "%s", name);
    if (number != VJ_ACCEPTED)
        stop(1, "%s: all is filed; the commit is refused with %u: %s", name, (unsigned)number, vj_run_text(number));
    puts("committed");
}

/* Starts a mark for the medium: none of its changes is filed. */
static void start_mark(const char *name)
{
    Mark mark = {0, 0, 0, 0, 0, 0};
    struct stat about = {0};
    if (fstatat(folder, "changes.csv", &about, 0) != 0 && errno != ENOENT)
        stop(2, "changes.csv");
    if (!read_mark(&mark) && about.st_size != 0)
        stop(1, "changes.csv has rows, and there is no mark that says how many are filed");
    mark = (Mark){journal.length, 0, 0, 0, mark.end, mark.end};
    write_mark(&mark);
    printf("%s: a new mark\n", name);
}

/* The morning. */
static void file_and_commit(const char *name)
{
    Mark mark;
    if (!read_mark(&mark))
        stop(1, "the folder has no mark: `archive new` starts one");
    VjNews found = look(name, &mark);
    file_news(name, &mark, &found);
    commit(name, &found);
}

int main(int count, char **arguments)
{
    int starts = count == 4 && strcmp(arguments[1], "new") == 0;
    if (count != 3 + starts)
        return fputs("archive CHIP FOLDER files what is new; archive new CHIP FOLDER starts a mark\n", stderr), 2;
    for (int file = 0; file < 3; file++) /* what is opened below must not take the place of a standard stream */
        if (fcntl(file, F_GETFD) == -1)
            stop(2, "descriptor %d", file);
    const char *name = arguments[1 + starts], *place = arguments[2 + starts];
    if ((folder = open(place, O_RDONLY | O_DIRECTORY)) < 0)
        stop(2, "%s", place);
    if (flock(folder, LOCK_EX | LOCK_NB) != 0)
        stop(2, "%s is in use, or cannot be locked", place);
    if ((chip = open(name, O_RDWR)) < 0)
        stop(2, "%s", name);
    open_chip(name, size_of(chip, name));
    if (starts)
        start_mark(name);
    else
        file_and_commit(name);
    if (ferror(stdout) || fflush(stdout) != 0)
        stop(2, "standard output");
    return 0;
}
