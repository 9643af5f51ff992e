/* A board's firmware in small: an image with a converter card that was pulled, powered up, run, run again in two parts with
   lunch between them, stepped; a halt that saves; and three refusals.
   What it prints is held to example.out. */
#include "hitchbriar.h"

#include <stdio.h>
#include <string.h>

static uint8_t image[WD16_IMAGE];
static uint8_t map[WD16_MAP];
static uint8_t settings[WD16_SETTINGS] = {
    [WD16_BLOCKS] = 1, [WD16_POWER_UP] = WD16_UP_FETCH, [WD16_HALT] = WD16_HALT_FETCH};
static uint8_t state[WD16_STATE];

static void put(uint16_t at, uint16_t word)
{
    wd16_put_word(image, at, word);
}

/* Reads a converter at C000 again and again; the routine at 0090 counts in R1 what could not be read. */
static void load(void)
{
    map[0x00] = WD16_FITTED;
    put(0x0012, 0x0090); /* bus error */
    put(0x0016, 0x0080); /* power-up */
    put(0x0080, 0x09BF); /* MOVI 10,SP */
    put(0x0082, 0xB5C2); /* MOV #C000,R2 */
    put(0x0084, 0xC000);
    put(0x0086, 0xB280); /* MOV @R2,R0 */
    put(0x0088, 0x01FE); /* BR 0086 */
    put(0x0090, 0x0C81); /* INC R1 */
    put(0x0092, 0x000F); /* RTT */
}

static void show(const char *what, uint8_t answer)
{
    printf("%-8s answer %u:", what, answer);
    for (size_t at = 0; at < WD16_INDICATORS; at += 2)
        printf(" %04X", wd16_word(state, at));
    printf(", indicators %X, I2 %u, mode %u, mark %u, cause %u", state[WD16_INDICATORS], state[WD16_I2],
           state[WD16_MODE], state[WD16_MARK], state[WD16_CAUSE]);
    if (state[WD16_TELLS])
        printf(", %s at %04X", wd16_cause_words(state[WD16_CAUSE]), wd16_word(state, WD16_ADDRESS));
    if (answer != WD16_DONE)
        printf("; %s", wd16_refusal_words(answer));
    printf("\n");
}

static uint8_t run(uint8_t *tally, const uint16_t *lines, size_t count)
{
    return wd16_run(state, sizeof state, tally, WD16_TALLY, image, sizeof image, map, sizeof map, settings,
                    sizeof settings, lines, count);
}

static void tell(unsigned blanks, unsigned first, unsigned address)
{
    printf("blanks %u, the first at %04X, where %04X was unfitted\n", blanks, first, address);
}

/* A run over all lines, with lunch after the first n: what is kept over it is the state and the image. Together the two
   parts are the run over all lines, and so are their tallies: the blanks add up, and the first is the first part's, or else
   the second's with its place moved on by n. */
static void run_with_lunch(const uint16_t *lines, size_t count, size_t n)
{
    uint8_t before[WD16_TALLY], after[WD16_TALLY];
    show("to lunch", run(before, lines, n));
    show("and on", run(after, lines + n, count - n));
    unsigned early = wd16_word(before, WD16_FIRST), late = wd16_word(after, WD16_FIRST);
    tell(wd16_word(before, WD16_BLANKS) + wd16_word(after, WD16_BLANKS),
         early != WD16_NONE ? early : late != WD16_NONE ? (unsigned)n + late : WD16_NONE,
         wd16_word(early != WD16_NONE ? before : after, WD16_FIRST_ADDRESS));
}

static uint8_t step(uint16_t line)
{
    return wd16_step(state, sizeof state, image, sizeof image, map, sizeof map, settings, sizeof settings, line);
}

int main(void)
{
    static const uint16_t quiet[18];
    static uint8_t image_before[WD16_IMAGE];
    uint8_t state_before[WD16_STATE], tally[WD16_TALLY];
    load();
    show("power-up",
         wd16_power_up(state, sizeof state, image, sizeof image, map, sizeof map, settings, sizeof settings));
    memcpy(state_before, state, sizeof state);
    memcpy(image_before, image, sizeof image);
    show("run", run(tally, quiet, 18));
    tell(wd16_word(tally, WD16_BLANKS), wd16_word(tally, WD16_FIRST), wd16_word(tally, WD16_FIRST_ADDRESS));

    memcpy(state, state_before, sizeof state);
    memcpy(image, image_before, sizeof image);
    run_with_lunch(quiet, 18, 2);

    show("step", step(0)); /* the card is still missing: the step tells its address */

    map[0xC0] = WD16_READ_ONLY; /* the card is put in again: it can be read */
    put(0xC000, 0x1234);
    for (int n = 0; n < 4; n++)
        show("step", step(0));
    show("I3", step(WD16_LINE_I3));

    settings[WD16_HALT] = WD16_HALT_SAVE; /* the halt switch saves the state in the image, and it is restored */
    show("I3", step(WD16_LINE_I3));
    show("I3", step(WD16_LINE_I3));
    show("step", step(0));
    printf("saved PC %04X, PS %04X\n", wd16_word(image, 0x000E), wd16_word(image, 0x0010));

    show("refused", step(0x4000)); /* an unused bit: 5, and nothing changes */
    settings[WD16_HALT] = 4;
    show("refused", step(0)); /* a jumper number over 3: 35 */
    map[0xC0] = 3;
    show("refused", step(0)); /* a map byte over 2: 3 */
    return 0;
}
