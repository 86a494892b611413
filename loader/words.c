#include "words.h"
#include "zed.h"

struct meaning {
    uint64_t number;
    const char *words;
    const char *whose;
};

static const char AUTHOR[] = "This is for the script's author to mend.";
static const char KEEPER[] = "This is for the table's keeper to mend.";
static const char LOADER[] = "This is for whoever runs the loader to mend.";
static const char JOURNALS[] = "This is for whoever chose the journals to mend.";
static const char AUTHOR_OR_LOADER[] = "This is for the script's author to mend, or for whoever runs the loader to allow more.";
static const char TABLE_OR_SCRIPT[] = "The script does not fit this table: its author should look at both.";

static const struct meaning meanings[] = {
    { ZED_SCRIPT_MALFORMED,
      "The script is longer than 16,384 bytes, or has a byte that is not printable, a line of over 255 bytes, or no line end at its end.", AUTHOR },
    { ZED_UNKNOWN_COMMAND, "There is no such command.", AUTHOR },
    { ZED_BAD_ARGUMENT, "An argument, a count or a command is missing here, cannot be read, or is out of range.", AUTHOR },
    { ZED_BAD_QUALIFIER, "This qualifier cannot stand here.", AUTHOR },
    { ZED_BAD_BRACKET, "A bracket has no partner, or brackets stand too deep.", AUTHOR },
    { ZED_NO_Z_LINE, "Inserted lines are not ended by a line Z.", AUTHOR },
    { ZED_BAD_WORD_SET,
      "This - or \" cannot stand here in the string of WORD: a - makes a range between two digits, capitals or small letters, the lower one first; a \" quotes the next byte.",
      AUTHOR },
    { ZED_BAD_PATTERN,
      "The pattern is ill-formed: it cannot go on with this byte, or cannot end here. Where | ( ) ~ # - or \" stands for itself, a \" must be before it.", AUTHOR },
    { ZED_TABLE_MALFORMED,
      "The table has a byte that is not printable, a line of over 255 bytes, no line end at its end, or more than 65,535 lines.", KEEPER },
    { ZED_WORK_SHORT, "The work area is too short for this script.", LOADER },
    { ZED_JOURNAL_SHORT, "The journal has less room than the table needs at the start.", LOADER },
    { ZED_DESTINATION_SHORT, "There is less room than what is to be written needs.", LOADER },
    { ZED_NOT_A_JOURNAL, "These bytes are no journal, or none that can be joined or turned round.", JOURNALS },
    { ZED_AT_EOF, "The command needs a line, and the end of the table is current.", TABLE_OR_SCRIPT },
    { ZED_MET_EOF, "The end of the table was met: the line looked for is not there.", TABLE_OR_SCRIPT },
    { ZED_NO_PREVIOUS, "The start of the table was met: the line looked for is not there.", TABLE_OR_SCRIPT },
    { ZED_LINE_DELETED, "The line with this number is deleted.", TABLE_OR_SCRIPT },
    { ZED_NO_MATCH, "The current line does not have the string.", TABLE_OR_SCRIPT },
    { ZED_LINE_LONG, "The line would become longer than 255 bytes.", TABLE_OR_SCRIPT },
    { ZED_JOURNAL_FULL, "The journal has no room for this change: give more with -r.", LOADER },
    { ZED_POINT_AT_END, "The window is at the line's end, or at its start.", TABLE_OR_SCRIPT },
    { ZED_LINE_BEFORE, "The last line to delete stands before the first.", TABLE_OR_SCRIPT },
    { ZED_BUDGET_SPENT, "The steps allowed are spent: the script may run for ever, or -b is too small.", AUTHOR_OR_LOADER },
    { ZED_NO_NEXT, "There is no next line to join to the current one.", TABLE_OR_SCRIPT },
    { ZED_GLOBALS_FULL, "Sixteen globals stand already, and the script gives one more.", AUTHOR },
    { ZED_MIDDLE_DIFFERS, "The middle tables differ: the table that the first journal ends with is not the one that the second begins with.", JOURNALS },
};

void say_number(FILE *out, uint64_t number)
{
    for (size_t i = 0; i < sizeof meanings / sizeof meanings[0]; i++) {
        if (meanings[i].number == number) {
            fprintf(out, "%s (%llu) %s\n", meanings[i].words, (unsigned long long)number, meanings[i].whose);
            return;
        }
    }
    fprintf(out, "The run ended with number %llu.\n", (unsigned long long)number);
}

void say_going_on(FILE *out, uint64_t steps)
{
    if (steps == UINT32_MAX)
        fputs("No larger -b can be given, so the script has to be mended. Its next step would be here:\n", out);
    else
        fputs("With a larger -b the run comes to this same point again and can only go on from there. Its next step is here:\n", out);
}

void show_place(FILE *out, const char *name, const struct bytes *script, size_t place)
{
    int past = place >= script->length && script->length > 0;
    /* what is missing at the script's end is shown at its last line end */
    size_t at = past ? script->length - 1 : place, start = at, end = at, line = 1;

    while (start > 0 && script->at[start - 1] != '\n')
        start--;
    for (size_t i = 0; i < start; i++)
        line += script->at[i] == '\n';
    while (end < script->length && script->at[end] != '\n')
        end++;
    fprintf(out, "%s, line %zu, column %zu%s:\n  ", name, line, at - start + 1, past ? ", the script's end" : "");
    fwrite(script->at + start, 1, end - start, out);
    fprintf(out, "\n  %*s^\n", (int)(at - start), "");
}

void show_stop(FILE *out, const char *name, const struct bytes *script, size_t place)
{
    if (place < script->length)
        show_place(out, name, script, place);
    else
        fprintf(out, "%s, after the script's end, in a line that it had not read.\n", name);
}
