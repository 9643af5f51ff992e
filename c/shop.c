/* The shop's calls in small: a patch assembled, another shop's trace of a job checked, and plugs recorded with a card pulled.
   What it prints is held to shop.out. */
#include "hitchbriar.h"

#include <stdio.h>
#include <string.h>

/* Prints a refusal; answers whether there was none. */
static int done(const char *what, uint8_t why)
{
    if (why != WD16_DONE)
        printf("%s refused %u: %s\n", what, why, wd16_refusal_words(why));
    return why == WD16_DONE;
}

/* ---- a patch */

static uint8_t section[WD16_SECTION];

/* Up to 8 lines of up to 32 characters, padded with spaces. */
static const uint8_t *padded(const char *const *lines, size_t count)
{
    static uint8_t source[8 * WD16_SOURCE_LINE];
    memset(source, ' ', sizeof source);
    for (size_t n = 0; n < count; n++)
        memcpy(source + n * WD16_SOURCE_LINE, lines[n], strlen(lines[n]));
    return source;
}

static void show_section(size_t length)
{
    printf("patch of %u words:", wd16_word(section, 0));
    for (size_t at = 2; at < length; at += 4)
        printf(" %04X %04X", wd16_word(section, at), wd16_word(section, at + 2));
    printf("\n");
}

/* Whether a refusal tells a line: those that don't leave the answer as it was. */
static int tells_line(uint8_t why)
{
    return why >= WD16_UNKNOWN_TEXT && why <= WD16_OUT_OF_PLACE;
}

/* Assembles a source, and answers the section's length, or 0. */
static size_t assemble(const uint8_t *source, size_t length)
{
    uint8_t answer[WD16_ANSWER];
    uint8_t why = wd16_assemble(source, length, section, sizeof section, answer, sizeof answer);
    if (tells_line(why))
        printf("patch refused %u at line %u: %s\n", why, wd16_word(answer, WD16_REFUSED_LINE), wd16_refusal_words(why));
    else if (done("patch", why))
        show_section(wd16_word(answer, WD16_SECTION_LENGTH));
    return why == WD16_DONE ? wd16_word(answer, WD16_SECTION_LENGTH) : 0;
}

/* ---- a trace */

static void check(const uint8_t *job, size_t job_length, const uint8_t *trace, size_t trace_length)
{
    uint8_t verdict[WD16_VERDICT];
    uint8_t why = wd16_check_trace(job, job_length, trace, trace_length, verdict, sizeof verdict);
    if (!done("trace", why))
        return;
    if (wd16_word(verdict, WD16_FOUND) == WD16_ACCEPTED)
        printf("trace accepted\n");
    else if (wd16_word(verdict, WD16_FOUND) == WD16_BY_LENGTH)
        printf("trace wrong at step %u: missing, or one too many\n", wd16_word(verdict, WD16_WRONG_STEP));
    else
        printf("trace wrong at step %u, field %u\n", wd16_word(verdict, WD16_WRONG_STEP), wd16_word(verdict, WD16_WRONG_FIELD));
}

/* The job of a patch on page 0: that page, the patch, and some quiet line words. */
static size_t job_of(uint8_t *job, size_t length, uint8_t lines)
{
    static const uint8_t pages[] = { 1, 0, 0 };
    memcpy(job, pages, sizeof pages);
    memcpy(job + sizeof pages, section, length);
    memset(job + sizeof pages + length, 0, 2 + 2 * (size_t)lines);
    job[sizeof pages + length] = lines;
    return sizeof pages + length + 2 + 2 * (size_t)lines;
}

static void traces(size_t length)
{
    static uint8_t job[3 + WD16_SECTION + 2 + 2 * 255];
    static const uint8_t none[] = { 0, 0 };
    static const uint8_t zeros[2 + WD16_ENTRY] = { 1, 0 };
    check(job, job_of(job, length, 0), none, sizeof none);
    check(job, job_of(job, length, 1), none, sizeof none);
    check(job, job_of(job, length, 1), zeros, sizeof zeros); /* R0 is 3 after the first step */
    check(job, job_of(job, length, 1), zeros, 3);            /* cut inside a state: 29 */
}

/* ---- plugs */

static uint8_t image[WD16_IMAGE], map[WD16_MAP], state[WD16_STATE], tally[WD16_TALLY], recorder[WD16_RECORDER];
static const uint8_t settings[WD16_SETTINGS] = {
    [WD16_BLOCKS] = 1, [WD16_POWER_UP] = WD16_UP_FETCH, [WD16_HALT] = WD16_HALT_FETCH};

static uint8_t power_up(void)
{
    return wd16_power_up(state, sizeof state, image, sizeof image, map, sizeof map, settings, sizeof settings);
}

enum { NO_CHANNEL = -1 };

/* A scan in which every channel has the same reading; the channel `pulled` has no card. */
static uint8_t scan(int reading, int pulled)
{
    uint16_t readings[WD16_CHANNELS], line = 0;
    uint8_t cards[WD16_CHANNELS];
    for (int n = 0; n < WD16_CHANNELS; n++) {
        cards[n] = n != pulled;
        readings[n] = (uint16_t)reading;
    }
    return wd16_scan(state, sizeof state, tally, sizeof tally, image, sizeof image, map, sizeof map, settings,
                     sizeof settings, &line, 1, cards, sizeof cards, readings, WD16_CHANNELS, recorder, sizeof recorder);
}

static void report(uint8_t channel)
{
    uint8_t told[WD16_REPORT];
    uint8_t why = wd16_report(recorder, sizeof recorder, &channel, 1, told, sizeof told);
    printf("channel %u: ", channel);
    if (done("report", why))
        printf("%u readings, %u blanks, lowest %d, highest %d, average %d/%u\n", wd16_word(told, WD16_READINGS),
               wd16_word(told, WD16_CARD_BLANKS), wd16_signed(told, WD16_LOWEST), wd16_signed(told, WD16_HIGHEST),
               (int)wd16_signed_long(told, WD16_SUM), wd16_word(told, WD16_READINGS));
}

static void plugs(void)
{
    map[0] = WD16_FITTED;
    if (!done("power-up", power_up()))
        return;
    done("scan", scan(-180, NO_CHANNEL));
    done("scan", scan(-181, 4)); /* the card of channel 4 is pulled */
    done("scan", scan(-182, NO_CHANNEL));
    done("scan", scan(WD16_GREATEST_READING + 1, NO_CHANNEL)); /* no reading: 33, and no channel counts it */
    report(3);
    report(4);
    report(16); /* 34 */
}

int main(void)
{
    static const char *const patch[] = { ".ORG 0016", ".WORD 0080", ".ORG 0080", "MOV #0003,R0", "LOOP: SOB R0,LOOP", "BR LOOP" };
    static const char *const missing[] = { "NOP", "BR AWAY" };
    size_t length = assemble(padded(patch, 6), 6 * WD16_SOURCE_LINE);
    traces(length);
    assemble(padded(missing, 2), 2 * WD16_SOURCE_LINE); /* 26, at line 1 */
    assemble(padded(missing, 2), WD16_SOURCE_LINE + 7); /* half a line: 36, and no line is told */
    map[1] = 3;
    done("power-up", power_up()); /* a map byte over 2: 3 */
    map[1] = WD16_UNFITTED;
    plugs();
    return 0;
}
