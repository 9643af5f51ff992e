/* Buffers of no length, for each of which a null pointer is as good as any other: what each function answers without a buffer,
   and where no length is a good one. What it prints is held to lengths.out. */
#include "hitchbriar.h"

#include <stdio.h>

static uint8_t image[WD16_IMAGE], map[WD16_MAP], state[WD16_STATE], tally[WD16_TALLY], answer[WD16_ANSWER];
static uint8_t recorder[WD16_RECORDER];
static const uint8_t settings[WD16_SETTINGS] = {
    [WD16_BLOCKS] = 1, [WD16_POWER_UP] = WD16_UP_FETCH, [WD16_HALT] = WD16_HALT_FETCH};

static void show(const char *what, uint8_t why)
{
    printf("%s: %u, %s\n", what, why, wd16_refusal_words(why));
}

/* Every buffer is missing. */
static void nothing_lent(void)
{
    show("power_up", wd16_power_up(NULL, 0, NULL, 0, NULL, 0, NULL, 0));
    show("step", wd16_step(NULL, 0, NULL, 0, NULL, 0, NULL, 0, 0));
    show("run", wd16_run(NULL, 0, NULL, 0, NULL, 0, NULL, 0, NULL, 0, NULL, 0));
    show("run_same", wd16_run_same(NULL, 0, NULL, 0, NULL, 0, NULL, 0, NULL, 0, 0, 0));
    show("run_until", wd16_run_until(NULL, 0, NULL, 0, NULL, 0, NULL, 0, NULL, 0, NULL, 0, 0));
    show("write_text", wd16_write_text(NULL, 0, NULL, 0, NULL, 0));
    show("read_text", wd16_read_text(NULL, 0, NULL, 0, NULL, 0));
    show("assemble", wd16_assemble(NULL, 0, NULL, 0, NULL, 0));
    show("labels", wd16_labels(NULL, 0, NULL, 0, NULL, 0));
    show("list_line", wd16_list_line(NULL, 0, NULL, 0, 0, 0, NULL, 0, NULL, 0));
    show("read_job", wd16_read_job(NULL, 0, NULL, 0, NULL, 0, NULL, 0, NULL, 0));
    show("check_trace", wd16_check_trace(NULL, 0, NULL, 0, NULL, 0));
    show("scan", wd16_scan(NULL, 0, NULL, 0, NULL, 0, NULL, 0, NULL, 0, NULL, 0, NULL, 0, NULL, 0, NULL, 0));
    show("report", wd16_report(NULL, 0, NULL, 0, NULL, 0));
}

/* One buffer is missing, and the others are good: the number is that buffer's own. */
static void one_missing(void)
{
    static const uint8_t empty_job[6]; /* no page, no word, no line word */
    uint8_t text[WD16_TEXT], words[WD16_WORDS] = {0}, verdict[WD16_VERDICT], report[WD16_REPORT];
    show("no image", wd16_power_up(state, sizeof state, NULL, 0, map, sizeof map, settings, sizeof settings));
    show("no map", wd16_power_up(state, sizeof state, image, sizeof image, NULL, 0, settings, sizeof settings));
    show("no words", wd16_write_text(NULL, 0, text, sizeof text, answer, sizeof answer));
    show("no text's buffer", wd16_write_text(words, sizeof words, NULL, 0, answer, sizeof answer));
    show("no text", wd16_read_text(NULL, 0, words, sizeof words, answer, sizeof answer));
    show("no words' buffer", wd16_read_text((const uint8_t *)"NOP", 3, NULL, 0, answer, sizeof answer));
    show("no section", wd16_assemble(NULL, 0, NULL, 0, answer, sizeof answer));
    show("no labels", wd16_labels(NULL, 0, NULL, 0, answer, sizeof answer));
    show("no listing's buffer", wd16_list_line(image, sizeof image, map, sizeof map, 0, 0, NULL, 0, answer, sizeof answer));
    show("no line buffer", wd16_read_job(NULL, 0, image, sizeof image, map, sizeof map, NULL, 0, answer, sizeof answer));
    show("no job", wd16_check_trace(NULL, 0, NULL, 0, verdict, sizeof verdict));
    show("no trace", wd16_check_trace(empty_job, sizeof empty_job, NULL, 0, verdict, sizeof verdict));
    show("no channel", wd16_report(recorder, sizeof recorder, NULL, 0, report, sizeof report));
}

/* A scan without line words; answers its number. */
static uint8_t scan(const uint8_t *cards, size_t cards_length)
{
    static const uint16_t readings[WD16_CHANNELS];
    return wd16_scan(state, sizeof state, tally, sizeof tally, image, sizeof image, map, sizeof map, settings, sizeof settings,
                     NULL, 0, cards, cards_length, readings, WD16_CHANNELS, recorder, sizeof recorder);
}

/* No line words and no source lines are good. */
static void none_is_good(void)
{
    static const uint8_t cards[WD16_CHANNELS];
    static uint8_t section[WD16_SECTION], labels[WD16_LABELS];
    uint8_t stopped[WD16_STOPPED];
    map[0] = WD16_FITTED;
    show("power_up", wd16_power_up(state, sizeof state, image, sizeof image, map, sizeof map, settings, sizeof settings));
    show("no line words", wd16_run(state, sizeof state, tally, sizeof tally, image, sizeof image, map, sizeof map, settings,
                                   sizeof settings, NULL, 0));
    show("no line words", wd16_run_until(state, sizeof state, stopped, sizeof stopped, image, sizeof image, map, sizeof map,
                                         settings, sizeof settings, NULL, 0, WD16_UNTIL_BLANK));
    printf("%u steps, %s\n", wd16_word(stopped, WD16_STEPS), wd16_cause_words(state[WD16_CAUSE]));
    show("no source", wd16_assemble(NULL, 0, section, sizeof section, answer, sizeof answer));
    printf("a section of %u bytes\n", wd16_word(answer, WD16_SECTION_LENGTH));
    show("no source", wd16_labels(NULL, 0, labels, sizeof labels, answer, sizeof answer));
    show("no cards", scan(NULL, 0));
    show("no line words", scan(cards, sizeof cards));
    printf("%u scan\n", wd16_word(recorder, WD16_SCANS));
}

/* Numbers that nothing has. */
static void no_words_for(void)
{
    printf("%s; %s; %s\n", wd16_refusal_words(39), wd16_cause_words(7), wd16_mode_words(255));
    printf("%s; %s; %s\n", wd16_refusal_words(38), wd16_cause_words(9), wd16_mode_words(5));
}

int main(void)
{
    nothing_lent();
    one_missing();
    none_is_good();
    no_words_for();
    return 0;
}
