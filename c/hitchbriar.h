/* The WD16 for C, on buffers that the caller lends: the processor, with power-up, one step, and runs over line words; the
   text of one op code, written and read; the assembler for patches, and a source's labels; the listing; the job reader; the check
   of another shop's trace; and the plug recorder: one scan, and the report of a channel.

   All of it is one library, libhitchbriar.a: `rt lib` in crates/hitchbriar proves it and writes it for x86-64, chips/library.sh
   makes it for other chips, and a release has it for each (docs/CHIPS.md). words.c beside this header is plain C: the words of
   the numbers; a release's libraries have it in them. A linker drops what is not called.

   Each buffer comes as a pointer and a length, in elements. The pointer points at that many elements, even where the length
   is not the one that the call wants; where the length is 0 it may be null. A buffer that is written overlaps no other. Words
   of two bytes (uint16_t) are aligned as C aligns them; bytes may be anywhere. Nothing else is asked of the caller: whatever the
   buffers hold, and whatever their lengths are, a call returns, with 0 or with the number of its refusal. A refused call leaves
   every buffer as it was, except the answer where a text is refused with its column or a source with its line.

   Nothing is kept between calls: no memory is allocated, and the library has no data of its own but constants. So calls on
   different buffers may go on at the same time, in threads and in interrupts. The work of a call is bounded by the lengths of
   what it is lent. A run does a fixed part, looks at each byte of the map and at each line word, and makes a step for each line
   word. A step is one op code or one element of a block move; within a run it costs less than a call of wd16_step does. The table
   below has the instructions of a step and the stack of each function; docs/CHIPS.md has the bytes of code. Of a C library it
   needs memset, memcpy and memmove at most, and the table says which function calls which of them on each chip.

   The old program's output is in the image: it writes to a card's page, and the caller reads that page's bytes when the call has
   returned. A value that is written over within one call is not seen; where each one counts, call wd16_step. */
#ifndef HITCHBRIAR_H
#define HITCHBRIAR_H

/* Measured on each chip, of the module that is proved; docs/CHIPS.md tells how, and chips/measure.py --write writes it here.
   (These figures are of the kit before the port to today's Rattle.)
   instructions                            cortex-m4           riscv32imc          aarch64             x86-64
   a step of wd16_run                      109 to 271          117 to 239          69 to 158           90 to 207
   a step of wd16_run_same                 108 to 271          118 to 239          67 to 156           90 to 208
   a step of wd16_run_until                368 to 530          573 to 694          239 to 328          327 to 444
   a step of wd16_step                     861 to 1023         1920 to 2041        682 to 771          545 to 663
   a call of wd16_step, the most seen      1729                3655                1317                1543
   bytes of stack, and what is called      cortex-m4           riscv32imc          aarch64             x86-64
   wd16_assemble                           22748 memset        22832 memset        23344 both          23312 both
   wd16_check_trace                        75212 memset        75008 memset        75408 memset        75536 memset
   wd16_labels                             10412 memset        10512 memset        11056 both          10960 both
   wd16_list_line                          1700                1776                1616 memcpy         1568 memcpy
   wd16_power_up                           232 memset          160 memset          480                 528
   wd16_read_job                           448 memset          400 memset          352 memset          256 memset
   wd16_read_text                          1684                1744                1792 memcpy         1760 memcpy
   wd16_report                             752 memcpy          720 memcpy          1824 memcpy         1792 memcpy
   wd16_run                                1268 memset         992 memset          1392                1472
   wd16_run_same                           1588 memset         1264 memset         1712                1776
   wd16_run_until                          1348 memset         1056 memset         1472                1600
   wd16_scan                               2852 both           2608 both           2720 memcpy         2864 memcpy
   wd16_step                               1228 memset         960 memset          1392                1488
   wd16_write_text                         1636                1712                1584 memcpy         1552 memcpy */

#include <stddef.h>
#include <stdint.h>

#ifdef __cplusplus
extern "C" {
#endif

/* This release, and the layout of the buffers: states, recorders and images that were kept are good for a library with the same
   layout. */
#define WD16_VERSION "1.0"
#define WD16_LAYOUT 1

enum {
    WD16_IMAGE = 65536,     /* bytes of an image: the low byte of a word at the even address */
    WD16_MAP = 256,         /* bytes of a map, one for each page of 256 addresses */
    WD16_SETTINGS = 4,      /* bytes of the settings */
    WD16_STATE = 24,        /* bytes of a state */
    WD16_TALLY = 6,         /* bytes of a tally */
    WD16_MOST_LINES = 4096, /* line words of a run, at most */
};

/* A map's bytes. */
enum wd16_page {
    WD16_UNFITTED = 0,  /* not fitted */
    WD16_FITTED = 1,    /* fitted */
    WD16_READ_ONLY = 2, /* fitted, and a write there is a bus error */
};

/* The settings' bytes: how the board is set up. */
enum {
    WD16_BLOCKS = 0,         /* 1 where the third microm is fitted, with the block moves 0E00 to 0FFF; else 0 */
    WD16_POWER_UP = 1,       /* the jumpers of the power-up option, 0 to 3 */
    WD16_HALT = 2,           /* the jumpers of the halt option, 0 to 3 */
    WD16_EXTERNAL = 3,       /* the External Address Register, 0 to 63 */
    WD16_MOST_EXTERNAL = 63, /* its highest value */
};

/* The power-up option's jumpers. */
enum wd16_up_option {
    WD16_UP_BOOTSTRAP = 0, /* PC is C000, with bits 8 to 13 from the External Address Register; nothing is read */
    WD16_UP_PICK_UP = 1,   /* R0 to R5, SP, PC and PS are picked up from 0000 to 0010 */
    WD16_UP_HALT = 2,      /* the halt option is executed */
    WD16_UP_FETCH = 3,     /* PC is fetched from 0016 */
};

/* The halt option's jumpers: what I3 does. */
enum wd16_halt_option {
    WD16_HALT_BOOTSTRAP = 0, /* as the bootstrap at power-up */
    WD16_HALT_SAVE = 1,      /* R0 to R5, SP, PC and PS are saved at 0000 to 0010, and picked up when I3 is clear again */
    WD16_HALT_LOCK = 2,      /* the processor locks up */
    WD16_HALT_FETCH = 3,     /* PC is fetched from 0016 */
};

/* A state's bytes. R0 to R5, SP and PC are two bytes each, low byte first: wd16_word(state, WD16_PC). */
enum {
    WD16_R0 = 0,
    WD16_R1 = 2,
    WD16_R2 = 4,
    WD16_R3 = 6,
    WD16_R4 = 8,
    WD16_R5 = 10,
    WD16_SP = 12,
    WD16_PC = 14,
    WD16_INDICATORS = 16, /* N, Z, V and C, as in a PS */
    WD16_I2 = 17,         /* the interrupt enable: 0 or 1 */
    WD16_MODE = 18,
    WD16_CAUSE = 19,   /* of the last step; 0 after power-up and after a run. A call checks its range, and nothing else */
    WD16_MARK = 20,    /* 1 after an IEN that found I2 clear: the next op code begins before I0 and I1 are heard; else 0 */
    WD16_TELLS = 21,   /* 1 where the last step tells an address, else 0; 0 after power-up and after a run. A call checks its
                          range, and nothing else */
    WD16_ADDRESS = 22, /* that address, two bytes, low byte first: the first that the dropped work found unfitted, or
                          read-only for a write, as it was given, bit 0 included; 0 where none is told. No call reads it */
};

/* The bits of a PS, as it is pushed and saved. */
enum {
    WD16_PS_C = 0x0001,
    WD16_PS_V = 0x0002,
    WD16_PS_Z = 0x0004,
    WD16_PS_N = 0x0008,
    WD16_PS_POWER_UP = 0x0100, /* times the power-up option's jumpers */
    WD16_PS_HALT = 0x0400,     /* times the halt option's jumpers */
    WD16_PS_I2 = 0x1000,
    WD16_PS_BUS_ERROR = 0x4000,  /* pushed by a bus error */
    WD16_PS_POWER_FAIL = 0x8000, /* power fail is on the lines */
};

enum wd16_mode {
    WD16_RUNNING = 0,           /* running */
    WD16_WAITING = 1,           /* waiting for an interrupt */
    WD16_HALTED_POWER_FAIL = 2, /* halted until the power is back */
    WD16_HALTED_SWITCH = 3,     /* halted until the halt switch is pressed */
    WD16_LOCKED = 4,            /* locked until it is powered up again */
    WD16_SAVED = 5,             /* saved until the halt switch is let go */
};

/* Causes; 5, 6 and 9 tell an address, and 8 in the step that locks by a bus error. 7 is free: no step gives it. */
enum wd16_cause {
    WD16_BY_OP_CODE = 0,      /* an op code, or its trap */
    WD16_BY_I3 = 1,           /* the halt option, or the end of its save */
    WD16_BY_I1 = 2,           /* interrupt I1 */
    WD16_BY_I0 = 3,           /* interrupt I0 */
    WD16_BY_NOTHING = 4,      /* nothing: waiting, halted or saved */
    WD16_BLANK_OP_CODE = 5,   /* a bus error in an op code */
    WD16_BLANK_INTERRUPT = 6, /* a bus error in an interrupt */
    WD16_BY_LOCK = 8,         /* locked, now or before */
    WD16_BLANK_SAVE = 9,      /* a bus error in a save */
};

/* A tally's bytes: the number of steps with cause 5, 6 or 9, then the place of the first of them, from 0, or WD16_NONE where
   there was none, then the address that it told, or 0; two each, low byte first. */
enum {
    WD16_BLANKS = 0,
    WD16_FIRST = 2,
    WD16_FIRST_ADDRESS = 4,
    WD16_NONE = 0xFFFF, /* as a place: a run's own places are below it */
};

/* A line word's bits: what is on the lines in one step. The others are 0.
   I0 and I1 are heard where I2 is set and the mark is clear: a pulse in any other step is lost, and a line that stays up
   interrupts again once the routine has set I2. IAK reads the device code of its own step, doubled: so keep the code on the lines
   until the routine has read it. */
enum {
    WD16_LINE_I0 = 0x0001,
    WD16_LINE_I1 = 0x0002,
    WD16_LINE_I3 = 0x0008,
    WD16_LINE_POWER_FAIL = 0x0080,
    WD16_LINE_DEVICE = 0x0100, /* times the device code */
    WD16_MOST_DEVICE = 15,     /* the highest device code */
};

/* What a call returns: WD16_DONE or a refusal. Each function below lists its own, in the order in which they are checked.
   21: a buffer whose length is fixed has another; or a byte that is read is over its range: the settings' first byte over 1,
   indicators over 15, I2 over 1, a mode over 5, a cause over 9, byte 20 or 21 of a state over 1, a card's byte over 1. */
enum wd16_refusal {
    WD16_DONE = 0,                /* done */
    WD16_BAD_IMAGE = 1,           /* the image is not 65,536 bytes */
    WD16_BAD_MAP = 2,             /* the map is not 256 bytes */
    WD16_BAD_MAP_BYTE = 3,        /* a byte of the map is over 2 */
    WD16_TOO_MANY_LINES = 4,      /* over 4,096 line words, or a job's line buffer that is not 4,096 */
    WD16_BAD_LINE = 5,            /* an unused bit of a line word is set */
    WD16_NO_WORDS = 6,            /* no words */
    WD16_WORD_MISSING = 7,        /* a needed next word is missing */
    WD16_TEXT_SHORT = 8,          /* the text's buffer is under 32 bytes, or under 52 for a listing */
    WD16_UNKNOWN_NAME = 9,        /* an unknown mnemonic */
    WD16_OUTPUT_SHORT = 10,       /* the words' buffer is under 6 bytes, the labels' under 4,096, or the section under
                                     12,290 */
    WD16_JOB_ENDS = 11,           /* the job ends inside a count or an entry */
    WD16_TOO_MANY_PAGES = 12,     /* over 256 pages */
    WD16_PAGE_NOT_RISING = 13,    /* a page is not above the one before it */
    WD16_TOO_MANY_WORDS = 14,     /* over 4,096 words */
    WD16_ADDRESS_ODD = 15,        /* a word's address is odd */
    WD16_ADDRESS_NOT_RISING = 16, /* a word's address is not above the one before it */
    WD16_ADDRESS_UNFITTED = 17,   /* a word's page is not fitted */
    WD16_TOO_MANY_JOB_LINES = 18, /* over 4,096 line words */
    WD16_BAD_JOB_LINE = 19,       /* an unused bit of a line word is set */
    WD16_JOB_BYTES_LEFT = 20,     /* bytes are left over after the job */
    WD16_BAD_BUFFER = 21,         /* a buffer for C has a wrong length, or a byte over its range */
    WD16_READ_ONLY_PAGE = 22,     /* a read-only page is not above the one before it, or is not fitted */
    WD16_BAD_STRETCH = 23,        /* an address of the listing is odd, or the last is below the first */
    WD16_UNKNOWN_TEXT = 24,       /* a line is no text */
    WD16_LABEL_AGAIN = 25,        /* a line's label is already given */
    WD16_LABEL_MISSING = 26,      /* no line gives a label that a line names */
    WD16_OUT_OF_REACH = 27,       /* a branch further than -128 to 127 words, or SOB further than 0 to 63 back */
    WD16_OUT_OF_PLACE = 28,       /* an odd origin, or words that overlap an earlier line's or run past FFFF */
    WD16_TRACE_CUT = 29,          /* the trace ends inside its count or a state, or has bytes left over */
    WD16_BAD_OPERAND = 30,        /* a bad operand */
    WD16_AFTER_TEXT = 31,         /* a character stands after a whole text */
    WD16_EARLY_END = 32,          /* the line ends too early, the empty line too */
    WD16_BAD_READING = 33,        /* a reading of a channel that has its card is not from -500 to 500 */
    WD16_NO_CHANNEL = 34,         /* a report on a channel over 15 */
    WD16_BAD_SETUP = 35,          /* a jumper number is over 3, or the External Address Register over 63 */
    WD16_SOURCE_LINES = 36,       /* the source is not whole lines of 32 bytes, or over 1,024 of them */
    WD16_SCANS_FULL = 37,         /* a scan past the 4,096th */
    WD16_ODD_WORDS = 38,          /* the words' buffer has an odd number of bytes */
};

/* ---- the words of a number, for a console or a display; "no such number" where there is none (words.c) */

const char *wd16_refusal_words(uint8_t number);
const char *wd16_cause_words(uint8_t number);
const char *wd16_mode_words(uint8_t number);

/* ---- reading and writing the buffers' fields */

/* The two bytes at a place, low byte first: a register of a state, a field of a tally, a word of an image. */
static inline uint16_t wd16_word(const uint8_t *bytes, size_t at)
{
    return (uint16_t)(bytes[at] | bytes[at + 1] << 8);
}

/* The same as a signed number: the lowest and the highest of a report. */
static inline int16_t wd16_signed(const uint8_t *bytes, size_t at)
{
    return (int16_t)wd16_word(bytes, at);
}

/* The four bytes at a place as a signed number: the sum of a report. */
static inline int32_t wd16_signed_long(const uint8_t *bytes, size_t at)
{
    return (int32_t)(wd16_word(bytes, at) | (uint32_t)wd16_word(bytes, at + 2) << 16);
}

static inline void wd16_put_word(uint8_t *bytes, size_t at, uint16_t word)
{
    bytes[at] = (uint8_t)word;
    bytes[at + 1] = (uint8_t)(word >> 8);
}

/* Whether the next step takes an interrupt, I0 or I1, that is on its lines. */
static inline int wd16_hears(const uint8_t *state)
{
    return state[WD16_I2] == 1 && state[WD16_MARK] == 0 && state[WD16_MODE] <= WD16_WAITING;
}

/* ---- the processor */

/* Writes the state after power-up, with cause 0. The state's bytes are not read; the image is written only where the power-up
   option is the halt option and that is a save. Refusals: 21 for the state's length and for the settings, 1, 2, 3, 35. */
uint8_t wd16_power_up(uint8_t *state, size_t state_length, uint8_t *image, size_t image_length, const uint8_t *map,
                      size_t map_length, const uint8_t *settings, size_t settings_length);

/* One step over a line word: the state, with its cause and the address that it tells, and the image after it. Refusals: 21,
   1, 2, 3, 35, 5. */
uint8_t wd16_step(uint8_t *state, size_t state_length, uint8_t *image, size_t image_length, const uint8_t *map,
                  size_t map_length, const uint8_t *settings, size_t settings_length, uint16_t line);

/* One step for each line word: the state, with cause 0, the tally and the image after them. Refusals: 21, 1, 2,
   3, 35, 4, 5.
   With no line word at all the image stays, the tally has no blank, and of the state only the cause and the address of the step
   before change, to 0: so read a step's cause before the next run.
   A run may be made in parts, each from the state and the image that the one before left: they end as the run over all lines.
   The blanks add up, and the first is the first part's, or else the second's with its place moved on by the first's length
   (c/example.c).
   A run that leaves no blanks and a mode other than 4 is the same where further pages of the map are fitted, as 1 or 2. */
uint8_t wd16_run(uint8_t *state, size_t state_length, uint8_t *tally, size_t tally_length, uint8_t *image,
                 size_t image_length, const uint8_t *map, size_t map_length, const uint8_t *settings,
                 size_t settings_length, const uint16_t *lines, size_t lines_length);

/* `steps` steps, 0 to 65,535, over one line word: as wd16_run over a list of that word alone, but no list is lent. The tally's
   blanks and place go up to 65,535 and 65,534. Refusals: 21, 1, 2, 3, 35, 5. */
uint8_t wd16_run_same(uint8_t *state, size_t state_length, uint8_t *tally, size_t tally_length, uint8_t *image,
                      size_t image_length, const uint8_t *map, size_t map_length, const uint8_t *settings,
                      size_t settings_length, uint16_t line, uint16_t steps);

/* What wd16_run_until is to end after: the sum of any of these. */
enum {
    WD16_UNTIL_INTERRUPT = 1, /* an interrupt taken: cause 2 or 3 */
    WD16_UNTIL_BLANK = 2,     /* a blank: cause 5, 6 or 9 */
    WD16_UNTIL_LOCK = 4,      /* the processor is locked: cause 8 */
    WD16_UNTIL_SWITCH = 8,    /* the halt switch taken, or let go after a save: cause 1 */
};

/* The bytes of its tally: those of a run's, then the number of steps that were done, two bytes, low byte first. */
enum {
    WD16_STEPS = 6,
    WD16_STOPPED = 8, /* bytes of this tally */
};

/* A run over line words that ends after the first step whose cause is asked for, or after which the processor waits, is halted
   or saved (modes 1, 2, 3 and 5); else after the last line word. It is wd16_run over the line words of the steps that were
   done, except that the state has the last step's cause and the address that it tells, as after wd16_step; cause 4 where there
   was no line word. All line words are checked first. Refusals: 21, also for an unused bit of `until`, 1, 2, 3, 35, 4, 5. */
uint8_t wd16_run_until(uint8_t *state, size_t state_length, uint8_t *tally, size_t tally_length, uint8_t *image,
                       size_t image_length, const uint8_t *map, size_t map_length, const uint8_t *settings,
                       size_t settings_length, const uint16_t *lines, size_t lines_length, uint8_t until);

/* ---- answers: what a call of the text or of the assembler tells beside its number, in three words, two bytes each, low byte
   first. What it doesn't tell is 0 */

enum {
    WD16_ANSWER = 6, /* bytes of an answer */
};

/* ---- the text of one op code */

enum {
    WD16_TEXT = 32,         /* bytes of a text's buffer, at least, where a text is written */
    WD16_LONGEST_TEXT = 24, /* characters of the longest text */
    WD16_WORDS = 6,         /* bytes of the words' buffer, at least, where a text is read: three words, the most of an op code */
};

/* The bytes of a text's answer. */
enum {
    WD16_LENGTH = 0, /* writing: the line's length */
    WD16_TAKEN = 2,  /* writing: the number of words that the op code has */
    WD16_COUNT = 0,  /* reading: the number of words read */
    WD16_COLUMN = 4, /* reading, where the refusal is 32, 31, 9 or 30: the column, from 0, of the first character that no
                        text has there after the same beginning; the line's length where it ends too early */
};

/* Writes the text of the op code that begins the words, which are two bytes each, low byte first. Bytes of the text's buffer
   after the line stay, and there is no line end; words past those of the op code are ignored. Refusals: 21, 38, 8, 6, 7. */
uint8_t wd16_write_text(const uint8_t *words, size_t words_length, uint8_t *text, size_t text_length, uint8_t *answer,
                        size_t answer_length);

/* Reads a text, the whole buffer, into words. Bytes of the words' buffer after the words read stay. Refusals: 21, 38, 10, and
   32, 31, 9 or 30. Only the last four write anything: the answer, with the column. */
uint8_t wd16_read_text(const uint8_t *text, size_t text_length, uint8_t *words, size_t words_length, uint8_t *answer,
                       size_t answer_length);

/* ---- the assembler */

enum {
    WD16_SOURCE_LINE = 32,         /* bytes of a line of a source */
    WD16_MOST_SOURCE_LINES = 1024, /* lines of a source, at most */
    WD16_SECTION = 12290,          /* bytes of the output, at least */
};

/* The bytes of the assembler's answer. */
enum {
    WD16_SECTION_LENGTH = 0, /* the length of the section */
    WD16_REFUSED_LINE = 4,   /* the line of a refusal from 24 to 28, from 0: the lowest line that has it */
};

/* Assembles a source, whole lines of 32 bytes padded with spaces, into the word section of a job at the front of the
   section's buffer: a count, then as many addresses and words, addresses rising. The bytes after it stay as they were. A
   refused call leaves the section as it was, and the answer too unless the refusal tells a line. Refusals: 21 for the
   answer's length, 10, 36, 24, 25, 26, 28, 27. The tables are the call's own, on the stack. */
uint8_t wd16_assemble(const uint8_t *source, size_t source_length, uint8_t *section, size_t section_length,
                      uint8_t *answer, size_t answer_length);

enum {
    WD16_LABELS = 4096, /* bytes of the labels, at least */
    WD16_LABEL = 4,     /* bytes of a line's label */
};

/* The bytes of a line's label, two each, low byte first. */
enum {
    WD16_LABEL_LENGTH = 0, /* the length of its label, which is the first bytes of the line; 0 where it has none */
    WD16_LABEL_VALUE = 2,  /* the address that the line begins at, which is the label's value */
};

/* Tells each line's label and its value, four bytes a line, in front of the labels. A line that is no text and a label that is
   given again are refused, since they make values doubtful; a label that is missing, and words that are out of place or out of
   reach, are not. The bytes after the last line's stay. The answer is the number of bytes written, 0, and the line of a refusal.
   Refusals: 21 for the answer's length, 10, 36, 24, 25. */
uint8_t wd16_labels(const uint8_t *source, size_t source_length, uint8_t *labels, size_t labels_length, uint8_t *answer,
                    size_t answer_length);

/* ---- the listing and the job reader */

enum {
    WD16_LIST_TEXT = 52, /* bytes of a listing line's buffer, at least */
};

/* The bytes of a listing line's answer, after its length. */
enum {
    WD16_NEXT = 2, /* the address of the next line, 0 where there is none */
    WD16_LAST = 4, /* 1 where this is the last line, else 0 */
};

/* Writes the listing's line at the address `first` of a stretch that ends at `last`, both even, in front of the text: address,
   words, text, a space apart, one op code, and no line end. The bytes after it stay. The answer is the line's length, the address
   of the next line, and whether this is the last. Nothing is run. Refusals: 21 for the answer's length, 1, 2, 3, 23, 8. */
uint8_t wd16_list_line(const uint8_t *image, size_t image_length, const uint8_t *map, size_t map_length, uint16_t first,
                       uint16_t last, uint8_t *text, size_t text_length, uint8_t *answer, size_t answer_length);

/* Reads a job into the image, the map and the line words, which are 4,096: what the job names, and 0 for all else. The answer is
   the number of line words, 0 and 0. Refusals: 21 for the answer's length, 1, 2, 4, then the job's own as of wd16_check_trace. */
uint8_t wd16_read_job(const uint8_t *job, size_t job_length, uint8_t *image, size_t image_length, uint8_t *map,
                      size_t map_length, uint16_t *lines, size_t lines_length, uint8_t *answer, size_t answer_length);

/* ---- the check of a trace */

enum {
    WD16_VERDICT = 6, /* bytes of a verdict */
};

/* A verdict's bytes: what a trace is found to be, then the step, from 0, then the field, from 0 for R0 to 9 for the mode; two
   each, low byte first, 0 where there is none. */
enum {
    WD16_FOUND = 0,
    WD16_WRONG_STEP = 2,
    WD16_WRONG_FIELD = 4,
};

/* What a trace is found to be. */
enum wd16_verdict {
    WD16_ACCEPTED = 0,  /* the trace is the manual's */
    WD16_BY_FIELD = 1,  /* the first wrong step has a wrong field */
    WD16_BY_LENGTH = 2, /* the step is missing, or one too many */
};

/* A trace: a count, two bytes, then an entry for each step from power-up. An entry is ten fields, two bytes each, low byte
   first: field 0 to 5 are R0 to R5, and these. */
enum {
    WD16_ENTRY = 20, /* bytes of an entry */
    WD16_FIELD_SP = 6,
    WD16_FIELD_PC = 7,
    WD16_FIELD_PS = 8, /* with bits 15 and 14 clear */
    WD16_FIELD_MODE = 9,
};

/* Compares another shop's trace of a job with the processor, on a board with the third microm and the jumpers 11 and 11. A
   job has three sections, each after its count of two bytes, low byte first: fitted pages, a byte each; words, an address
   and a value, two bytes each; line words; and perhaps a fourth of read-only pages. The verdict is written. Refusals come
   before anything is compared: 21 for the verdict's length; the job's own, the first that its reader meets, entry by entry: 11
   to 20 and 22; 29. The image is the call's own, on the stack. */
uint8_t wd16_check_trace(const uint8_t *job, size_t job_length, const uint8_t *trace, size_t trace_length,
                         uint8_t *verdict, size_t verdict_length);

/* ---- the plug recorder */

enum {
    WD16_CHANNELS = 16,         /* plug channels of a scan: bytes of the cards, words of the readings */
    WD16_REPORT = 12,           /* bytes of a channel's report */
    WD16_RECORDER = 194,        /* bytes of a recorder */
    WD16_MOST_SCANS = 4096,     /* scans of a recorder, at most */
    WD16_CONVERTERS = 0xFE,     /* the page of the converter cards: channel n is read at FE00 + 2n */
    WD16_LEAST_READING = -500,  /* tenths of a degree */
    WD16_GREATEST_READING = 500,
};

/* The cards' bytes: 1 where a channel has its card, else 0. The readings' words: tenths of a degree from -500 to 500, two's
   complement; what stands there for a channel without its card is not read. */

/* A report's bytes, two each, low byte first, but four for the sum. Signed ones are two's complement: wd16_signed,
   wd16_signed_long. The average is the sum and the number of readings. Lowest, highest and sum are 0 where there is no reading. */
enum {
    WD16_READINGS = 0,
    WD16_CARD_BLANKS = 2, /* the scans in which the channel had no card */
    WD16_LOWEST = 4,
    WD16_HIGHEST = 6,
    WD16_SUM = 8,
};

/* A recorder's bytes: the number of its scans, two bytes, low byte first, then the reports of channels 0 to 15. A recorder
   before its first scan is all 0. */
enum {
    WD16_SCANS = 0,
    WD16_REPORTS = 2,
};

/* One scan: where all sixteen channels have their cards, page FE is fitted and writable, and the readings stand at FE00 on,
   low byte first; else page FE is unfitted and stays as lent; whatever the map says, which is not changed. Then a run over
   the line words, from the state where the last scan ended: the state, the tally and the image as after wd16_run, and the
   recorder with one scan more. Refusals: 21, 1, 2, 3, 35, 4, 5, 33, 37.
   Between scans page FE is as the map has it: a caller that runs on keeps the map's byte FE in step with the cards. */
uint8_t wd16_scan(uint8_t *state, size_t state_length, uint8_t *tally, size_t tally_length, uint8_t *image,
                  size_t image_length, const uint8_t *map, size_t map_length, const uint8_t *settings,
                  size_t settings_length, const uint16_t *lines, size_t lines_length, const uint8_t *cards,
                  size_t cards_length, const uint16_t *readings, size_t readings_length, uint8_t *recorder,
                  size_t recorder_length);

/* Writes the report of the channel whose number is the one byte at `channel`. Refusals: 21, 34. */
uint8_t wd16_report(const uint8_t *recorder, size_t recorder_length, const uint8_t *channel, size_t channel_length,
                    uint8_t *report, size_t report_length);

#ifdef __cplusplus
}
#endif

#endif
