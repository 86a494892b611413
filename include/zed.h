/* ZED table editor: the functions that a C program calls. Link with libzed.a. */
#ifndef ZED_H
#define ZED_H

#include <stddef.h>
#include <stdint.h>

#ifdef __cplusplus
extern "C" {
#endif

/* What a run or a reader of journals answers, and who causes it. */
enum {
    ZED_DONE = 0,

    /* a run refused: the script's author; from 2 on the answer's place says where */
    ZED_SCRIPT_MALFORMED = 1, /* over 16,384 bytes, a byte not from 32 to 126, a line over 255 bytes, or no LF (10) at the end */
    ZED_UNKNOWN_COMMAND = 2,  /* unknown command */
    ZED_BAD_ARGUMENT = 3,     /* an argument, a count or a counted command missing, unreadable or out of range */
    ZED_BAD_QUALIFIER = 4,    /* a qualifier that cannot stand there */
    ZED_BAD_BRACKET = 5,      /* a bracket unmatched, too deep or never closed */
    ZED_NO_Z_LINE = 6,        /* inserted lines without their Z line */
    ZED_BAD_WORD_SET = 33,    /* a - or " in WORD's string that quotes no byte and makes no range */
    ZED_BAD_PATTERN = 34,     /* the string of R is no pattern: a byte of it, or its end, cannot stand there */

    /* a run refused: the table's keeper */
    ZED_TABLE_MALFORMED = 7, /* no table: a byte not from 32 to 126, a line over 255 bytes, no LF at the end, over 65,535 lines */

    /* a run or a reader refused: the loader */
    ZED_WORK_SHORT = 8,         /* the work area is shorter than 2 * script_length + 64 */
    ZED_JOURNAL_SHORT = 9,      /* the journal buffer is shorter than the table and two bytes a line */
    ZED_DESTINATION_SHORT = 10, /* the destination of a reader, of joining or of turning round is too short */
    ZED_NOT_A_JOURNAL = 11,     /* the bytes are no list of records, or their old side has over 65,535 lines; to join or to turn round
                                   also: their new side has, or a deleted line stands after an inserted one of its stretch */

    /*
     * a run stopped: the script does not fit the table; the answer's place says at which command. 25 and 26 can also come after the script's end,
     * from a line that it had not read and that its globals (GE, GA, GB) would change: the place is then script_length, and no line that
     * was not read is changed.
     */
    ZED_AT_EOF = 20,       /* the command needs a line, and the end-of-file line is current */
    ZED_MET_EOF = 21,      /* a search forward, or a line number, met the end of the table */
    ZED_NO_PREVIOUS = 22,  /* there is no previous line, or a search backward met the start of the table */
    ZED_LINE_DELETED = 23, /* the numbered line is deleted */
    ZED_NO_MATCH = 24,     /* the string does not match */
    ZED_LINE_LONG = 25,    /* a line would be over 255 bytes */
    ZED_JOURNAL_FULL = 26, /* the journal would be longer than its buffer */
    ZED_POINT_AT_END = 27, /* the window is at the line's end, or at its start */
    ZED_LINE_BEFORE = 28,  /* the last line to delete is before the first */
    ZED_BUDGET_SPENT = 29, /* the next step would exceed the budget */
    ZED_NO_NEXT = 30,      /* there is no next line to join to the current one */
    ZED_GLOBALS_FULL = 31, /* sixteen globals stand, and another is given */

    /* joining refused: the journals are not of two seasons that follow each other */
    ZED_MIDDLE_DIFFERS = 32 /* the first journal's new side is not the second's old side */
};

/* What a run comes to. */
typedef struct zed_answer {
    uint64_t number;   /* one of the numbers above: 0 done; 1 to 9, 33 and 34 refused; 20 to 31 stopped */
    uint64_t steps;    /* the steps made; refused: 0 */
    uint64_t furthest; /* the highest source line read, the end-of-file line counting as lines + 1; refused: 0 */
    uint64_t length;   /* the journal's length in bytes; refused: 0 */
    uint64_t place;    /* the byte offset in the script that the number comes from; script_length where 25 or 26 come after its end;
                          0 where done, and for 1, 7, 8 and 9 */
} zed_answer;

/* Whether a run with this number was refused: nothing was run, and the journal buffer is untouched. */
static inline int zed_is_refusal(uint64_t number)
{
    return (number >= 1 && number <= 9) || number == ZED_BAD_WORD_SET || number == ZED_BAD_PATTERN;
}

/*
 * Runs a script against a table and writes the journal of what was done.
 *
 * What to lend, for the time of the call only:
 *   table, table_length      the door timing table. Any bytes may be given. They are read and not changed.
 *   script, script_length    the script. Any bytes may be given. They are read and not changed.
 *   budget                   the most steps to make. A run that ends with any number but 29 ends the same, to the last byte of
 *                            the journal buffer, under every budget that allows the steps it made. A run that ends with 29
 *                            has made just this many steps; under a larger budget it goes on from where it stood.
 *   work, work_length        a work area of 32-bit numbers; 2 * script_length + 64 of them are enough for every script of
 *                            that length. It need not be cleared. What it holds afterwards means nothing.
 *   journal, journal_length  where the journal goes: at least the table's length and two bytes a line, and room for what the
 *                            script adds: a changed line adds its new text and 1, an inserted line its text and 3. A global
 *                            can change every line of the table but the first. It need not be cleared.
 *   answer                   where the answer goes. All five numbers are always set.
 * No two of these may overlap, but for table and script. No pointer may be null, not even where a length is 0. No length
 * may be over PTRDIFF_MAX bytes.
 *
 * The result is the answer's number again. Afterwards
 *   done or stopped   the first answer->length bytes of the journal buffer are the journal, the bytes past it are 0. A
 *                     stopped run's journal has all that was done before the command that stopped, and what the globals
 *                     made of the lines that this command read. Only a run that is done (0) has done all that the script
 *                     asks. In the journal, in each stretch without kept (==) or changed (<>) records, all deleted lines
 *                     (--) come first, in the old table's order, then all inserted ones (++), in the new table's.
 *   refused           the journal buffer is untouched.
 */
uint64_t zed_run(const uint8_t *table, size_t table_length, const uint8_t *script, size_t script_length, uint32_t budget, uint32_t *work,
                 size_t work_length, uint8_t *journal, size_t journal_length, zed_answer *answer);

/*
 * The readers of a journal:
 *
 *   zed_old_side   the lines of the old table
 *   zed_new_side   the lines of the new table
 *   zed_listing    the lines of the new table; before each its source number in five columns, or " ****" if it was
 *                  inserted, then '-' if the source line before it is deleted, then '+' if it is changed
 *
 * Each line is written with its LF (10). Journals in which inserted records stand before deleted ones are read as well.
 *
 * What to lend, for the time of the call only:
 *   journal, journal_length      the journal's bytes and their exact number: a byte more, even a zero, is not a journal.
 *                                Any bytes may be given. They are read and not changed.
 *   dest, dest_length            where to write. It must not overlap the journal or *written. It need not be cleared.
 *   written                      where the written length goes. It is always set.
 * No pointer may be null, not even where the length is 0. No length may be over PTRDIFF_MAX.
 *
 * The result is one of the numbers above: 11 is looked for first, then 10.
 *   0       the first *written bytes of dest are the lines; the bytes of dest past them are untouched.
 *           A destination of just the written length is long enough.
 *   10, 11  *written is 0 and all of dest is untouched.
 *
 * An old side and a new side are never longer than the journal. A listing of n lines is 7 * n bytes longer
 * than the new side.
 */
uint32_t zed_old_side(const uint8_t *journal, size_t journal_length, uint8_t *dest, size_t dest_length, size_t *written);
uint32_t zed_new_side(const uint8_t *journal, size_t journal_length, uint8_t *dest, size_t dest_length, size_t *written);
uint32_t zed_listing(const uint8_t *journal, size_t journal_length, uint8_t *dest, size_t dest_length, size_t *written);

/*
 * One journal for two seasons, and the way back:
 *
 *   zed_join   of a journal from old to middle and one from middle to new that from old to new. A middle line that is kept
 *              or changed in both stays one record: kept (==) if the first's old and the second's new text are the same,
 *              else changed (<>). A line that is inserted in the first and deleted in the second leaves nothing. Every
 *              other line is deleted (--), with its oldest text, or inserted (++), with its newest.
 *   zed_turn   the journal from new to old: deleted and inserted records change places, a changed record's two lines as well
 *
 * What is written is arranged as a run's journal is. Three journals that follow each other join to the same bytes under
 * either bracketing; turning round twice gives the first bytes.
 *
 * What to lend, for the time of the call only:
 *   first, first_length,         the journals' bytes and their exact number, as for the readers above. Any bytes may be given.
 *   second, second_length,       They are read and not changed. The first and the second may be the same bytes.
 *   journal, journal_length
 *   dest, dest_length            where to write. It must not overlap a journal or *written. It need not be cleared.
 *   written                      where the written length goes. It is always set.
 * No pointer may be null, not even where the length is 0. No length may be over PTRDIFF_MAX.
 *
 * The result is one of the numbers above: 11 is looked for first, in both journals, then 32, then 10.
 *   0           the first *written bytes of dest are the journal; the bytes of dest past them are untouched.
 *               A destination of just the written length is long enough.
 *   10, 11, 32  *written is 0 and all of dest is untouched.
 * Here 11 also stands for a journal that is not arranged, that is, in which a deleted line stands after an inserted one of the
 * same stretch, and for one with over 65,535 lines on either side. The journal of a run is arranged.
 *
 * Two joined journals are never longer than both together. A journal turned round is just as long as it was.
 */
uint32_t zed_join(const uint8_t *first, size_t first_length, const uint8_t *second, size_t second_length, uint8_t *dest, size_t dest_length,
                  size_t *written);
uint32_t zed_turn(const uint8_t *journal, size_t journal_length, uint8_t *dest, size_t dest_length, size_t *written);

#ifdef __cplusplus
}
#endif

#endif
