/* A replacement board: the old program in its image, run on the proved processor, some op codes for each tick of the chip's
   clock; its interrupt lines; cards that are pulled and plugged while it runs; and the plug recorder. A line on the console is a
   command; README.md tells them. */
#include "chip.h"
#include "hitchbriar.h"
#include "tables.h" /* old_words: the old program; read_by_card: what the converter cards of this example read */

#include <string.h>

enum {
    STEPS = 100,      /* op codes for each tick, at most: 100,000 a second */
    LOOK = 8,         /* op codes between two looks whether a key can be heard */
    CLOCK = 5,        /* ticks from one pulse of the old board's line clock to the next */
    SCAN = 10,        /* ticks from one scan of the plugs to the next */
    RELAYS = 0xC0,    /* the page of the relay card */
    ROM = 0x80,       /* the first of the program's two read-only pages */
    VARIABLES = 0x100 /* of the old program: a word for each of the names in print_state */
};

#define DEVICE_BITS (WD16_LINE_DEVICE * WD16_MOST_DEVICE)

/* What the processor is lent. It keeps nothing itself: who has these has the whole board. */
static uint8_t image[WD16_IMAGE], map[WD16_MAP], state[WD16_STATE], recorder[WD16_RECORDER], cards[WD16_CHANNELS];
static const uint8_t settings[WD16_SETTINGS] = { /* the jumpers; the halt switch saves, and goes on when it is let go */
    [WD16_BLOCKS] = 1, [WD16_POWER_UP] = WD16_UP_FETCH, [WD16_HALT] = WD16_HALT_SAVE};

static uint16_t levels;      /* lines that stand as long as their cause: power fail, the halt switch, the last key's code */
static uint16_t clock_waits; /* I1, until the processor has taken it */
static uint16_t key_waits;   /* I0 and its device code, until the processor has taken it */
static unsigned blanks, first_blank; /* since they were last told */
static unsigned ticks, scans;        /* since the board was switched on */

/* ---- printing */

static void text(const char *characters)
{
    while (*characters != 0)
        chip_put(*characters++);
}

static void number(int32_t value, int width)
{
    char digits[12], *at = digits + sizeof digits - 1;
    uint32_t left = value < 0 ? 0u - (uint32_t)value : (uint32_t)value;
    *at = 0;
    do
        *--at = (char)('0' + left % 10);
    while ((left /= 10) != 0);
    if (value < 0)
        *--at = '-';
    for (int n = (int)(digits + sizeof digits - 1 - at); n < width; n++)
        chip_put(' ');
    text(at);
}

static void hex(unsigned word)
{
    for (int shift = 12; shift >= 0; shift -= 4)
        chip_put("0123456789ABCDEF"[word >> shift & 15]);
}

/* No call below is refused unless this file is wrong. A refused call changes nothing, so going on would spin: the refusal is
   told, and the board stops. */
static void done(const char *what, uint8_t why)
{
    if (why == WD16_DONE)
        return;
    text(what), text(" refused "), number(why, 0), text(": "), text(wd16_refusal_words(why)), text("\n");
    chip_end(1);
}

/* ---- the old board */

/* The page of the converters is fitted while all sixteen channels have their cards. wd16_scan looks at the cards itself; in the
   runs between scans the map decides. */
static void fit_converters(void)
{
    map[WD16_CONVERTERS] = WD16_FITTED;
    for (int n = 0; n < WD16_CHANNELS; n++)
        if (!cards[n])
            map[WD16_CONVERTERS] = WD16_UNFITTED;
}

/* The old board as it is switched on, with all its cards. */
static void power_up(void)
{
    memset(image, 0, sizeof image);
    memset(map, WD16_UNFITTED, sizeof map);
    memset(cards, 1, sizeof cards);
    memset(recorder, 0, sizeof recorder);
    levels = clock_waits = key_waits = 0;
    blanks = first_blank = ticks = scans = 0;
    map[0x00] = map[0x01] = map[RELAYS] = WD16_FITTED;
    map[ROM] = map[ROM + 1] = WD16_READ_ONLY;
    fit_converters();
    for (size_t n = 0; n < sizeof old_words / sizeof *old_words; n++)
        wd16_put_word(image, old_words[n].at, old_words[n].word);
    done("power-up", wd16_power_up(state, sizeof state, image, sizeof image, map, sizeof map, settings, sizeof settings));
}

/* ---- the processor */

static void count_blanks(const uint8_t *tally)
{
    if (blanks == 0)
        first_blank = wd16_word(tally, WD16_FIRST_ADDRESS);
    blanks += wd16_word(tally, WD16_BLANKS);
}

/* Up to so many op codes with a line word. The run ends early after a step that takes an interrupt, and where the old program
   waits or is halted. Answers how many were done. */
static size_t run(size_t most, uint16_t line)
{
    uint8_t tally[WD16_STOPPED];
    uint16_t lines[STEPS];
    for (size_t n = 0; n < most; n++)
        lines[n] = line;
    done("run", wd16_run_until(state, sizeof state, tally, sizeof tally, image, sizeof image, map, sizeof map, settings,
                               sizeof settings, lines, most, WD16_UNTIL_INTERRUPT));
    count_blanks(tally);
    return wd16_word(tally, WD16_STEPS);
}

/* What stands on the lines next; answers for how many op codes at most. The line clock's I1 waits on the lines until it is
   taken. A key's I0 comes with a device code, and the routine of the key before may still have to read its own from the lines:
   so the new one is put there for one step, when that step will hear it. */
static size_t next_line(size_t left, uint16_t *line)
{
    *line = levels | clock_waits;
    if (key_waits == 0)
        return left;
    if (!wd16_hears(state))
        return left < LOOK ? left : LOOK;
    *line = (uint16_t)((*line & ~DEVICE_BITS) | key_waits);
    return 1;
}

/* An interrupt that the last step took waits no longer. A key's device code stays on the lines for the IAK of its routine. */
static void interrupt_taken(void)
{
    if (state[WD16_CAUSE] == WD16_BY_I1)
        clock_waits = 0;
    if (state[WD16_CAUSE] == WD16_BY_I0) {
        levels = (uint16_t)((levels & ~DEVICE_BITS) | (key_waits & DEVICE_BITS));
        key_waits = 0;
    }
}

/* Whether the old program has nothing to do before the lines change. */
static int sleeps(void)
{
    return state[WD16_MODE] != WD16_RUNNING && !(wd16_hears(state) && (clock_waits | key_waits) != 0);
}

/* The op codes of one tick. While the old program waits, the chip sleeps for the rest of it. */
static void batch(void)
{
    for (size_t left = STEPS; left > 0;) {
        uint16_t line;
        size_t most = next_line(left, &line);
        left -= run(most, line);
        interrupt_taken();
        if (sleeps())
            return;
    }
}

/* ---- the recorder */

/* The sixteen channels are read; the processor runs on afterwards, in batch. */
static void scan(const uint16_t *readings)
{
    uint8_t tally[WD16_TALLY];
    if (scans == WD16_MOST_SCANS) {
        text("the recorder is full: a new one\n");
        memset(recorder, 0, sizeof recorder);
        scans = 0;
    }
    done("scan", wd16_scan(state, sizeof state, tally, sizeof tally, image, sizeof image, map, sizeof map, settings,
                           sizeof settings, NULL, 0, cards, sizeof cards, readings, WD16_CHANNELS, recorder,
                           sizeof recorder));
    scans++;
}

static void print_channel(uint8_t channel)
{
    uint8_t report[WD16_REPORT];
    done("report", wd16_report(recorder, sizeof recorder, &channel, 1, report, sizeof report));
    number(channel, 7), number(wd16_word(report, WD16_READINGS), 10), number(wd16_word(report, WD16_CARD_BLANKS), 8);
    if (wd16_word(report, WD16_READINGS) == 0) {
        text("      --       --          --\n");
        return;
    }
    number(wd16_signed(report, WD16_LOWEST), 8), number(wd16_signed(report, WD16_HIGHEST), 9);
    number(wd16_signed_long(report, WD16_SUM), 12), text("/"), number(wd16_word(report, WD16_READINGS), 0), text("\n");
}

/* ---- the commands; each has what stands after its name, and the number that this is */

static unsigned waits; /* scans before the next command */
static int held;       /* no time goes by but in `wait`: so a test has the same scans on every chip */

static void fit(const char *what, unsigned channel, uint8_t fitted)
{
    if (strcmp(what, "relays") == 0)
        map[RELAYS] = fitted;
    else if (*what >= '0' && *what <= '9' && channel < WD16_CHANNELS)
        cards[channel] = fitted;
    else
        text("no such card: "), text(what), text("\n");
    fit_converters();
}

static void do_pull(const char *what, unsigned channel)
{
    fit(what, channel, WD16_UNFITTED);
}

static void do_plug(const char *what, unsigned channel)
{
    fit(what, channel, WD16_FITTED);
}

static void do_key(const char *what, unsigned device)
{
    (void)what;
    key_waits = (uint16_t)(WD16_LINE_I0 | device % (WD16_MOST_DEVICE + 1) * WD16_LINE_DEVICE);
}

static void do_halt(const char *what, unsigned given)
{
    (void)what, (void)given;
    levels |= WD16_LINE_I3;
}

static void do_go(const char *what, unsigned given)
{
    (void)what, (void)given;
    levels &= (uint16_t)~WD16_LINE_I3;
}

static void do_fail(const char *what, unsigned given)
{
    (void)what, (void)given;
    levels |= WD16_LINE_POWER_FAIL;
}

static void do_back(const char *what, unsigned given)
{
    (void)what, (void)given;
    levels &= (uint16_t)~WD16_LINE_POWER_FAIL;
}

/* As `hitch record` prints it. */
static void do_report(const char *what, unsigned given)
{
    (void)what, (void)given;
    text("channel  readings  blanks  lowest  highest     average\n");
    for (uint8_t channel = 0; channel < WD16_CHANNELS; channel++)
        print_channel(channel);
}

static void do_state(const char *what, unsigned given)
{
    static const char *const names[] = {"ticks", "blanks", "warm", "last", "keys", "power fails", "doors"};
    (void)what, (void)given;
    text(wd16_mode_words(state[WD16_MODE])), text("; PC "), hex(wd16_word(state, WD16_PC));
    text(", SP "), hex(wd16_word(state, WD16_SP)), text("; the old program's");
    for (size_t n = 0; n < sizeof names / sizeof *names; n++)
        text(n == 0 ? " " : ", "), text(names[n]), text(" "), number(wd16_signed(image, VARIABLES + 2 * n), 0);
    text("; new blanks "), number((int32_t)blanks, 0);
    if (blanks != 0)
        text(", the first at "), hex(first_blank);
    text("\n");
    blanks = 0;
}

static void do_reset(const char *what, unsigned given)
{
    (void)what, (void)given;
    power_up();
}

static void do_wait(const char *what, unsigned given)
{
    (void)what;
    waits = given;
}

static void do_hold(const char *what, unsigned given)
{
    (void)what, (void)given;
    held = 1;
}

/* A program gone wrong: noise over all that is fitted. */
static void do_scramble(const char *what, unsigned given)
{
    static uint32_t noise = 1;
    (void)what, (void)given;
    for (size_t at = 0; at < sizeof image; at++)
        if (map[at >> 8] != WD16_UNFITTED) {
            noise ^= noise << 13, noise ^= noise >> 17, noise ^= noise << 5;
            image[at] = (uint8_t)noise;
        }
}

/* The watchdog ends it. */
static void do_hang(const char *what, unsigned given)
{
    (void)what, (void)given;
    for (;;)
        ;
}

static void do_end(const char *what, unsigned given)
{
    (void)what, (void)given;
    chip_end(0);
}

static const struct {
    const char *name;
    void (*does)(const char *what, unsigned given);
} commands[] = {
    {"pull", do_pull},   {"plug", do_plug},   {"key", do_key},     {"halt", do_halt}, {"go", do_go},
    {"fail", do_fail},   {"back", do_back},   {"report", do_report}, {"state", do_state}, {"reset", do_reset},
    {"wait", do_wait},   {"hold", do_hold},   {"scramble", do_scramble}, {"hang", do_hang}, {"end", do_end},
};

static void command(char *line)
{
    char *what = strchr(line, ' ');
    unsigned given = 0;
    if (what != NULL)
        *what++ = 0;
    for (const char *digit = what; digit != NULL && *digit >= '0' && *digit <= '9'; digit++)
        given = given * 10 + (unsigned)(*digit - '0');
    for (size_t n = 0; n < sizeof commands / sizeof *commands; n++)
        if (strcmp(commands[n].name, line) == 0) {
            commands[n].does(what != NULL ? what : "", given);
            return;
        }
    text("no such command: "), text(line), text("\n");
}

/* Reads what has come, a line at a time, until a command lets time go by. A terminal ends its lines with a return and shows nothing
   itself: its line is shown. */
static void console(void)
{
    static char line[40];
    static size_t length;
    for (int got; waits == 0 && (got = chip_get()) >= 0;) {
        if (got != '\n' && got != '\r') {
            if (length < sizeof line - 1)
                line[length++] = (char)got;
            continue;
        }
        line[length] = 0;
        if (got == '\r')
            text(line), text("\n");
        if (length != 0)
            command(line);
        length = 0;
    }
}

/* ---- a tick */

static void tick(void)
{
    if (ticks % CLOCK == 0)
        clock_waits = WD16_LINE_I1;
    if (ticks % SCAN == 0)
        scan(read_by_card[scans % (sizeof read_by_card / sizeof *read_by_card)]);
    batch();
    ticks++;
    if (waits > 0 && ticks % SCAN == 0)
        waits--;
}

int main(void)
{
    chip_start();
    power_up();
    text("the board is up\n");
    for (;;) {
        chip_tick();
        console();
        if (!held || waits > 0)
            tick();
    }
}
