/* The van's program in small: op codes written as text, texts read as op codes, and what is refused.
   What it prints is held to text.out. */
#include "hitchbriar.h"

#include <stdio.h>
#include <string.h>

static uint8_t answer[WD16_ANSWER];

static void show_words(const uint8_t *words, size_t count)
{
    for (size_t n = 0; n < count; n++)
        printf(" %04X", wd16_word(words, 2 * n));
}

static void write_text(const uint8_t *words, size_t length)
{
    uint8_t text[WD16_TEXT];
    uint8_t why = wd16_write_text(words, length, text, sizeof text, answer, sizeof answer);
    printf("write");
    show_words(words, length / 2);
    if (why == WD16_DONE)
        printf(": %.*s, %u of the words\n", (int)wd16_word(answer, WD16_LENGTH), (const char *)text,
               wd16_word(answer, WD16_TAKEN));
    else
        printf(": refused %u, %s\n", why, wd16_refusal_words(why));
}

/* Whether a refusal tells a column: those that don't leave the answer as it was. */
static int tells_column(uint8_t why)
{
    return why == WD16_EARLY_END || why == WD16_AFTER_TEXT || why == WD16_UNKNOWN_NAME || why == WD16_BAD_OPERAND;
}

static void read_text(const char *text)
{
    uint8_t words[WD16_WORDS];
    uint8_t why = wd16_read_text((const uint8_t *)text, strlen(text), words, sizeof words, answer, sizeof answer);
    printf("read %s:", text);
    if (why == WD16_DONE)
        show_words(words, wd16_word(answer, WD16_COUNT));
    else
        printf(" refused %u, %s", why, wd16_refusal_words(why));
    if (tells_column(why))
        printf("; column %u", wd16_word(answer, WD16_COLUMN));
    printf("\n");
}

int main(void)
{
    static const uint8_t add[] = { 0xC0, 0x15, 0x05, 0x00 };              /* 15C0 0005 */
    static const uint8_t mov[] = { 0xE6, 0xB7, 0x34, 0x12, 0xFF, 0xFF }; /* B7E6 1234, and a word past it */
    write_text(add, sizeof add);
    write_text(mov, sizeof mov);
    write_text(add, 2); /* the literal is missing: 7 */
    write_text(add, 0); /* 6 */
    write_text(add, 3); /* half a word: 38 */
    read_text("ADD #0005,R0");
    read_text("SOB R1,03");
    read_text("MOVX R0"); /* no mnemonic: 9 */
    read_text("MOV  R0"); /* 30 */
    read_text("NOP NOP"); /* 31 */
    read_text("MOV R0,"); /* 32 */
    return 0;
}
