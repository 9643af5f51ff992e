/* Calls wd16_step for every op code, on boards of noise, and for those that save and pick up registers many times. chips/count.c
   tells the most instructions between a call of `begins` and the next of `ends`. Prints the number of calls. */
#include "hitchbriar.h"

#include <stdio.h>

enum {
    AT = 0x0100, /* where the op code stands */
    FEW = 0x100, /* the op codes below are called MANY times: SAVE, RTT and their like */
    MANY = 2000,
    EACH = 16
};

void begins(void);
void ends(void);

static uint8_t image[WD16_IMAGE], map[WD16_MAP], state[WD16_STATE];
static const uint8_t settings[WD16_SETTINGS] = {
    [WD16_BLOCKS] = 1, [WD16_POWER_UP] = WD16_UP_FETCH, [WD16_HALT] = WD16_HALT_SAVE};
static uint32_t noise = 1;

__attribute__((noinline)) void begins(void)
{
    __asm__ volatile("");
}

__attribute__((noinline)) void ends(void)
{
    __asm__ volatile("");
}

static uint32_t some(void)
{
    noise ^= noise << 13, noise ^= noise >> 17, noise ^= noise << 5;
    return noise;
}

/* Every other board has cards that are missing and pages that are read-only. */
static void fit(void)
{
    int all = (some() & 1) != 0;
    for (int page = 0; page < WD16_MAP; page++)
        map[page] = all ? WD16_FITTED : (uint8_t)(some() % 3);
    map[AT >> 8] = WD16_FITTED;
}

/* Registers of noise; of four one is close to a page's end, so that work fails late. */
static void lay_state(void)
{
    for (size_t at = WD16_R0; at < WD16_PC; at += 2) {
        uint16_t value = (uint16_t)some();
        wd16_put_word(state, at, some() % 4 == 0 ? (uint16_t)((value & 0xFF00) + value % 16) : value);
    }
    wd16_put_word(state, WD16_PC, AT);
    state[WD16_INDICATORS] = some() & 15;
    state[WD16_I2] = some() & 1;
    state[WD16_MODE] = WD16_RUNNING;
    state[WD16_CAUSE] = WD16_BY_OP_CODE;
    state[WD16_MARK] = state[WD16_TELLS] = 0;
}

/* One step of an op code; of sixteen one takes an interrupt, or the halt switch. */
static uint8_t step(unsigned op_code)
{
    static const uint16_t lines[] = {WD16_LINE_I0 | 3 * WD16_LINE_DEVICE, WD16_LINE_I1, WD16_LINE_I3, 0};
    lay_state();
    wd16_put_word(image, AT, (uint16_t)op_code);
    uint16_t line = some() % 16 == 0 ? lines[some() % 4] : 0;
    begins();
    uint8_t why = wd16_step(state, sizeof state, image, sizeof image, map, sizeof map, settings, sizeof settings, line);
    ends();
    return why;
}

int main(void)
{
    unsigned calls = 0;
    for (size_t at = 0; at < sizeof image; at++)
        image[at] = (uint8_t)some();
    for (unsigned op_code = 0; op_code < 0x10000; op_code++)
        for (int n = op_code < FEW ? MANY : EACH; n > 0; n--) {
            if (calls++ % 16 == 0)
                fit();
            if (step(op_code) != WD16_DONE)
                return 1;
        }
    printf("%u calls\n", calls);
    return 0;
}
