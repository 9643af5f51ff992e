/* The words of the numbers, for a console or a display. Made by c/numbers.py from c/numbers.tsv. */
#include "hitchbriar.h"

static const char no_such_number[] = "no such number";

const char *wd16_refusal_words(uint8_t number)
{
    static const char *const words[] = {
        [WD16_DONE] = "done",
        [WD16_BAD_IMAGE] = "the image is not 65,536 bytes",
        [WD16_BAD_MAP] = "the map is not 256 bytes",
        [WD16_BAD_MAP_BYTE] = "a byte of the map is over 2",
        [WD16_TOO_MANY_LINES] = "over 4,096 line words, or a job's line buffer that is not 4,096",
        [WD16_BAD_LINE] = "an unused bit of a line word is set",
        [WD16_NO_WORDS] = "no words",
        [WD16_WORD_MISSING] = "a needed next word is missing",
        [WD16_TEXT_SHORT] = "the text's buffer is under 32 bytes, or under 52 for a listing",
        [WD16_UNKNOWN_NAME] = "an unknown mnemonic",
        [WD16_OUTPUT_SHORT] = "the words' buffer is under 6 bytes, the labels' under 4,096, or the section under 12,290",
        [WD16_JOB_ENDS] = "the job ends inside a count or an entry",
        [WD16_TOO_MANY_PAGES] = "over 256 pages",
        [WD16_PAGE_NOT_RISING] = "a page is not above the one before it",
        [WD16_TOO_MANY_WORDS] = "over 4,096 words",
        [WD16_ADDRESS_ODD] = "a word's address is odd",
        [WD16_ADDRESS_NOT_RISING] = "a word's address is not above the one before it",
        [WD16_ADDRESS_UNFITTED] = "a word's page is not fitted",
        [WD16_TOO_MANY_JOB_LINES] = "over 4,096 line words",
        [WD16_BAD_JOB_LINE] = "an unused bit of a line word is set",
        [WD16_JOB_BYTES_LEFT] = "bytes are left over after the job",
        [WD16_BAD_BUFFER] = "a buffer for C has a wrong length, or a byte over its range",
        [WD16_READ_ONLY_PAGE] = "a read-only page is not above the one before it, or is not fitted",
        [WD16_BAD_STRETCH] = "an address of the listing is odd, or the last is below the first",
        [WD16_UNKNOWN_TEXT] = "a line is no text",
        [WD16_LABEL_AGAIN] = "a line's label is already given",
        [WD16_LABEL_MISSING] = "no line gives a label that a line names",
        [WD16_OUT_OF_REACH] = "a branch further than -128 to 127 words, or SOB further than 0 to 63 back",
        [WD16_OUT_OF_PLACE] = "an odd origin, or words that overlap an earlier line's or run past FFFF",
        [WD16_TRACE_CUT] = "the trace ends inside its count or a state, or has bytes left over",
        [WD16_BAD_OPERAND] = "a bad operand",
        [WD16_AFTER_TEXT] = "a character stands after a whole text",
        [WD16_EARLY_END] = "the line ends too early, the empty line too",
        [WD16_BAD_READING] = "a reading of a channel that has its card is not from -500 to 500",
        [WD16_NO_CHANNEL] = "a report on a channel over 15",
        [WD16_BAD_SETUP] = "a jumper number is over 3, or the External Address Register over 63",
        [WD16_SOURCE_LINES] = "the source is not whole lines of 32 bytes, or over 1,024 of them",
        [WD16_SCANS_FULL] = "a scan past the 4,096th",
        [WD16_ODD_WORDS] = "the words' buffer has an odd number of bytes",
    };
    return number < sizeof words / sizeof *words && words[number] != NULL ? words[number] : no_such_number;
}

const char *wd16_cause_words(uint8_t number)
{
    static const char *const words[] = {
        [WD16_BY_OP_CODE] = "an op code, or its trap",
        [WD16_BY_I3] = "the halt option, or the end of its save",
        [WD16_BY_I1] = "interrupt I1",
        [WD16_BY_I0] = "interrupt I0",
        [WD16_BY_NOTHING] = "nothing: waiting, halted or saved",
        [WD16_BLANK_OP_CODE] = "a bus error in an op code",
        [WD16_BLANK_INTERRUPT] = "a bus error in an interrupt",
        [WD16_BY_LOCK] = "locked, now or before",
        [WD16_BLANK_SAVE] = "a bus error in a save",
    };
    return number < sizeof words / sizeof *words && words[number] != NULL ? words[number] : no_such_number;
}

const char *wd16_mode_words(uint8_t number)
{
    static const char *const words[] = {
        [WD16_RUNNING] = "running",
        [WD16_WAITING] = "waiting for an interrupt",
        [WD16_HALTED_POWER_FAIL] = "halted until the power is back",
        [WD16_HALTED_SWITCH] = "halted until the halt switch is pressed",
        [WD16_LOCKED] = "locked until it is powered up again",
        [WD16_SAVED] = "saved until the halt switch is let go",
    };
    return number < sizeof words / sizeof *words && words[number] != NULL ? words[number] : no_such_number;
}
