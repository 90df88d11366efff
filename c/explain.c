/* Document 01's example: strip S, three cells in a row with an arrow along them, with cells 0 and 2 square. Prints why it can't be finished. */
#include <stdio.h>

#include "evolmino.h"

int main(void)
{
    static const uint8_t strip[] = {0x00, 0x80, 0x08, 0x00, 0x00, 0x05, 0xE0};
    static const uint8_t decisions[] = {0x80, 0x00, 0x80, 0x02};
    uint8_t output[EVOLMINO_OUTPUT];

    int32_t found = evolmino_find(strip, sizeof strip, decisions, sizeof decisions, output, sizeof output);
    if (found < 0) {
        printf("refused %d\n", -found);
        return 1;
    }
    if (found == 0) {
        printf("none\n");
        return 0;
    }
    printf("reason %d\n", found);
    for (int32_t k = 0; k < found; k++) {
        unsigned word = output[2 * k] * 256u + output[2 * k + 1];
        printf("%u %u\n", word % 1024, word / 32768);
    }
    return 0;
}
