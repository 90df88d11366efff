/* A game on a board that the program keeps: five cells in a row with an arrow along the first four. Touches, a hint, undo, a touch that is refused,
 * and the board when it is done. */
#include <stdio.h>

#include "evolmino.h"

/* One row of five plain cells, one arrow of four cells from cell 0 to the right. */
static const uint8_t record[] = {0x01, 0x00, 0x08, 0x00, 0x00, 0x00, 0x7F, 0x80};
static const uint16_t no_sizes[1];

/* All of it is zero at first, which a board may be before it is opened. */
static struct evolmino_board board;

/* What a call refuses is told by its number. */
static int32_t said(const char *call, int32_t answer)
{
    if (answer < 0) {
        printf("%s: refused %d\n", call, (int)-answer);
    }
    return answer;
}

static void touch(size_t index, uint8_t value)
{
    if (said("decide", evolmino_board_decide(&board, index, value)) == 0) {
        printf("cell %d is %s\n", (int)index, value ? "square" : "empty");
    }
}

static void hint(uint8_t player)
{
    uint16_t literals[EVOLMINO_LITERALS];
    int32_t found = said("find", evolmino_board_find(&board, player, literals, EVOLMINO_LITERALS));

    if (found == 0) {
        printf("player %d asks: nothing is wrong so far\n", player);
    } else if (found > 0) {
        printf("player %d asks: it cannot be finished with", player);
        for (int32_t k = 0; k < found; k++) {
            printf("%s %d %s", k > 0 ? "," : "", literals[k] % 32768, literals[k] < 32768 ? "empty" : "square");
        }
        printf("\n");
    }
}

int main(void)
{
    if (said("open", evolmino_board_open(record, sizeof record, 1, no_sizes, 0, &board)) < 0) {
        return 1;
    }
    touch(0, 1);
    hint(0);
    touch(1, 1);
    hint(0);
    said("undo", evolmino_board_undo(&board));
    touch(0, 0);
    touch(1, 0);
    touch(2, 0);
    hint(2);
    touch(3, 1);
    touch(4, 1);
    hint(4);
    printf("done: %s\n", evolmino_board_finished(&board) == 1 ? "yes" : "no");
    printf("hints: %d %d %d %d\n", (int)evolmino_board_hints(&board, 0), (int)evolmino_board_hints(&board, 1),
           (int)evolmino_board_hints(&board, 2), (int)evolmino_board_hints(&board, 3));
    return 0;
}
