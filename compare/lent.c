// Runs one program on the plain interpreter's function over lent buffers, to count its instructions where there is no Rust
// library for x86-64: lent RUNS NAME < IMAGE, MAP AND LINE WORDS. compare/instructions.sh compiles it, with ENDED as the name that the
// compiler gave the function; a slice is an address and a length. It prints the name, and R0 to R5, SP and PC at the end.
#include <stdint.h>
#include <stdio.h>
#include <stdlib.h>

uint8_t ENDED(uint8_t *image, size_t, const uint8_t *map, size_t, const uint16_t *lines, size_t, size_t runs, uint16_t *registers);

static uint8_t image[65536], map[256];
static uint16_t lines[4096], registers[8];

int main(int count, char **words) {
    if (count != 3 || fread(image, 1, sizeof image, stdin) != sizeof image || fread(map, 1, sizeof map, stdin) != sizeof map ||
        fread(lines, 2, 4096, stdin) != 4096)
        return 2;
    if (ENDED(image, sizeof image, map, sizeof map, lines, 4096, atoi(words[1]), registers)) return 1;
    printf("end %s", words[2]);
    for (int n = 0; n < 8; n++) printf(" %04X", registers[n]);
    putchar('\n');
}
