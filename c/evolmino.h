/* The proved Evolmino constraint, for C and C++. `.ci/built` writes the library, target/staticlib/libhost.a. The calls are for edition 1
 * of the rules (README, The puzzle) and leaves without sizes, but for those whose names end in _with and evolmino_unique, which take an edition and
 * sizes, evolmino_board_open, which takes both for the board that it opens, and evolmino_setter_file, which takes the edition; a record that is
 * turned or joined is so for both editions. The calls whose names begin with evolmino_board_ are for a game, on one board that the caller keeps and
 * lends. */
#ifndef EVOLMINO_H
#define EVOLMINO_H

#include <stddef.h>
#include <stdint.h>

/* The length in bytes of an output that is long enough for evolmino_find, evolmino_find_with and every record: 2 * (3 * 32 * 32 + 1). */
#define EVOLMINO_OUTPUT 6146

/* The length in bytes of the longest clause sheet, where one arrow runs through all cells of a grid of 32 by 32 and each is black or given:
 * 4 * 1024 + 6 * 2 * 31 * 32 + 2 * 1024 * 1024. With m cells off the arrows there are at most 48 * m bytes for them, but only
 * 2 * (1024 - m) * (1024 - m) for the arrows. */
#define EVOLMINO_SHEET 2113152

/* The length in bytes of an output that is long enough for evolmino_shades and every record: 4 * 32 * 32. */
#define EVOLMINO_SHADES 4096

/* The length in bytes of an output that is long enough for evolmino_certain, evolmino_certain_with, evolmino_board_certain and every record:
 * 8 + 32 * 32. */
#define EVOLMINO_CERTAIN 1032

/* The length in bytes of the longest record, so the same for evolmino_turn and evolmino_join. */
#define EVOLMINO_RECORD 2819

/* The length in bytes of the longest setter's or player's file: the longest record, and behind it 3 + 32 * 32 bits in whole bytes. */
#define EVOLMINO_FILE 2948

/* The length in bytes of an output that is long enough for evolmino_setter_file and every file: 1 + 32 * 32. */
#define EVOLMINO_SETTER 1025

/* The length in literals of a buffer that is long enough for evolmino_board_find and every board: 3 * 32 * 32 + 1. */
#define EVOLMINO_LITERALS 3073

/* What a negated return value says. */
enum {
    EVOLMINO_RECORD_ENDS = 1,   /* the record ends inside a field, or before one that is due */
    EVOLMINO_CELL_CODE = 2,     /* cell code 3 */
    EVOLMINO_OFF_GRID = 3,      /* an arrow's start or step is off the grid */
    EVOLMINO_USED_TWICE = 4,    /* an arrow cell is used twice */
    EVOLMINO_FILLER = 5,        /* a filler bit is not zero, or a byte follows it; in a file a filler bit of its record alone */
    EVOLMINO_BAD_BOARD = 6,     /* a board that no list of calls could leave */
    EVOLMINO_INDEX = 7,         /* a decision's index is height * width or more */
    EVOLMINO_VALUE = 8,         /* a decision's value is above 1 */
    EVOLMINO_DECIDED = 9,       /* the cell is decided already */
    EVOLMINO_NOTHING_DECIDED = 10, /* no decision stands that could be undone */
    EVOLMINO_OUTPUT_SHORT = 11, /* the output is shorter than the call asks for */
    EVOLMINO_DECISION = 12,     /* a decision's five bits are not zero, or a single byte is left over at the end */
    EVOLMINO_SHEET_SHORT = 13,  /* the output is too short for the whole clause sheet */
    EVOLMINO_TURNING = 14,      /* the number of a turning is above 7 */
    EVOLMINO_RECORD_OUTPUT_SHORT = 15, /* the output is shorter than the record that is to be written */
    EVOLMINO_EDITION = 16,      /* an edition that is not 1 or 2 */
    EVOLMINO_PLAYER = 17,       /* a player above 3 */
    EVOLMINO_UNEQUAL_HEIGHTS = 18, /* the records that are to be joined are not of equal height */
    EVOLMINO_TOO_WIDE = 19,     /* the joined leaf would be wider than 32 */
    EVOLMINO_TAIL = 20,         /* what stands behind a file's record is too short or too long, or its filler is not zero */
    EVOLMINO_UNFINISHED = 21,   /* the solution of a setter's file is not finished in the edition */
    EVOLMINO_SIZES = 22,        /* the sizes end inside a range, or one of them starts at 0, is upside down, sits off an arrow or does not rise */
    EVOLMINO_CERTIFICATE_LENGTH = 23, /* the certificate is not whole words of three bytes, or has more than 8388608 of them */
    EVOLMINO_NO_SOLUTION_STEP = 24, /* it does not begin with the step of a claimed solution */
    EVOLMINO_SOLUTION_UNFINISHED = 25, /* the claimed solution is not finished in the edition with the sizes */
    EVOLMINO_STEP_CUT = 26,     /* a step is not whole */
    EVOLMINO_NOT_A_LITERAL = 27, /* a clause has more literals than there are cells, or a word that is no literal of the leaf */
    EVOLMINO_HINT = 28,         /* a hint is not the place of an earlier step, decides no cell, or is false before the last hint */
    EVOLMINO_NOT_CLOSED = 29,   /* a step does not close */
    EVOLMINO_CERTIFICATE_END = 30 /* the words end without the step of no literals, or something follows it */
};

/* What evolmino_certain, evolmino_certain_with and evolmino_board_certain return where they do not refuse. */
enum {
    EVOLMINO_TOLD = 0,     /* each cell is told */
    EVOLMINO_NO_BOARD = 1, /* no finished board agrees with the decisions */
    EVOLMINO_SPENT = 2     /* the search has more steps than the budget */
};

/* What a record says, as a board keeps it. */
struct evolmino_problem {
    size_t height;         /* 1 to 32 */
    size_t width;          /* 1 to 32 */
    uint8_t cells[1024];   /* for each cell in row order 0 plain, 1 black, 2 given square, and 0 behind the grid */
    uint16_t arrows[1024]; /* the cells of the arrows, one arrow after another, and 0 behind them */
    uint16_t ends[1024];   /* for each arrow the place in arrows behind its last cell, and 0 behind them */
    size_t count;          /* how many arrows there are */
};

/* A board that the caller keeps and lends to the calls for a game. The caller may read its fields, copy it, and store its bytes for this machine; it
 * need not be freed. Any bytes may stand in it: each call but evolmino_board_open tests the whole board first. What no list of calls could leave is
 * refused with 6 and comes back unchanged; any counts of hints could be left. The bytes between the fields mean nothing, and a call that is accepted
 * may leave any there, such as stood on the stack: two equal boards may differ in them, and who stores a board clears them first. */
struct evolmino_board {
    struct evolmino_problem problem;
    uint8_t edition;        /* 1 or 2 */
    uint8_t cells[1024];    /* for each cell in row order 0 empty, 1 square, 2 undecided, and 2 behind the grid */
    uint16_t order[1024];   /* the decided cells in the order decided, and 0 behind them */
    size_t decided;         /* how many cells are decided */
    uint16_t hints[4];      /* for each player how many finds were accepted since the board was opened; 65535 is that many or more */
    uint16_t lowest[1024];  /* for each cell the lowest size beside it, and 0 where none is */
    uint16_t highest[1024]; /* for each cell the highest size beside it, and 0 where none is */
};

/* The layout that the library was built for. A compiler that lays the struct out otherwise stops here, at an array of a negative size. */
#define EVOLMINO_BOARD_SIZE 12336
#define EVOLMINO_LIES_AT(name, field, place) \
    typedef char evolmino_lies_at_##name[offsetof(struct evolmino_board, field) == (place) ? 1 : -1]
typedef char evolmino_board_size[sizeof(struct evolmino_board) == EVOLMINO_BOARD_SIZE ? 1 : -1];
EVOLMINO_LIES_AT(problem_height, problem.height, 0);
EVOLMINO_LIES_AT(problem_width, problem.width, 8);
EVOLMINO_LIES_AT(problem_cells, problem.cells, 16);
EVOLMINO_LIES_AT(problem_arrows, problem.arrows, 1040);
EVOLMINO_LIES_AT(problem_ends, problem.ends, 3088);
EVOLMINO_LIES_AT(problem_count, problem.count, 5136);
EVOLMINO_LIES_AT(edition, edition, 5144);
EVOLMINO_LIES_AT(cells, cells, 5145);
EVOLMINO_LIES_AT(order, order, 6170);
EVOLMINO_LIES_AT(decided, decided, 8224);
EVOLMINO_LIES_AT(hints, hints, 8232);
EVOLMINO_LIES_AT(lowest, lowest, 8240);
EVOLMINO_LIES_AT(highest, highest, 10288);
#undef EVOLMINO_LIES_AT

#ifdef __cplusplus
extern "C" {
#endif

/* Opens the record, decides in order and finds. A decision and a literal are two bytes, most significant first: value (1 bit, 1 for a
 * square), five zero bits, index (10 bits, row * width + column).
 *
 * Returns the number of literals, which stand in the output's first bytes, 0 where no reason applies, or the negated number of a refusal,
 * which changes no byte: the record's 1 to 5, then 11 for an output shorter than 2 * (3 * height * width + 1) bytes, then for each decision
 * in turn 12, 7, 9, and 12 for a single byte that is left over. Bytes behind the last literal are unchanged. The pointers are not null, also
 * where a length is 0, and the output does not overlap the record or the decisions. The call keeps nothing and may be made from any thread,
 * also from several at once; it takes up to about 105 kilobytes of stack.
 */
int32_t evolmino_find(const uint8_t *record, size_t record_len,
                      const uint8_t *decisions, size_t decisions_len,
                      uint8_t *output, size_t output_len);

/* Opens the record, decides in order and tells whether the leaf is finished: every cell is decided, black cells are empty, given squares are
 * square, the block rules hold, and two squares or more stand on every arrow. Decisions and pointers are as for evolmino_find.
 *
 * Returns 1 for yes, 0 for no, or the negated number of a refusal: the record's 1 to 5, then for each decision in turn 12, 7, 9, and 12 for a
 * single byte that is left over. It keeps nothing either, and takes up to about 45 kilobytes of stack.
 */
int32_t evolmino_finished(const uint8_t *record, size_t record_len,
                          const uint8_t *decisions, size_t decisions_len);

/* Writes the puzzle's clauses for a solver that takes plain ones. A clause is a count of two bytes, most significant first, and that many
 * literals, laid out as in evolmino_find. A full board satisfies it where one of its literals agrees; it satisfies all of them and the block
 * rules exactly when it is finished. Four parts follow one another: black cells as 0 and given ones as 1; each two arrow cells that touch, both
 * 0; a cell off the arrows with each two of its neighbours on arrows, all 0; for each arrow cell the other cells of its arrow, all 1. An arrow
 * of one cell gives a clause of count 0, which no board satisfies.
 *
 * Returns the number of bytes written, which are the output's first, or the negated number of a refusal: the record's 1 to 5, then 13. Bytes
 * behind the sheet are unchanged, and all of them after a refusal. EVOLMINO_SHEET bytes are enough for every record; most sheets are far shorter, so
 * that a caller may also begin with less and lend more as long as 13 is returned. Pointers are as for evolmino_find. It keeps nothing either, and
 * takes up to about 21 kilobytes of stack.
 */
int32_t evolmino_clauses(const uint8_t *record, size_t record_len,
                         uint8_t *output, size_t output_len);

/* Opens the record, decides in order and writes for each cell of the grid in row order four bytes, two numbers of 16 bits, most significant
 * first: the first cell of the cell's block and how many squares the block has, or 0 and 0 for a cell that is not square. Decisions and
 * pointers are as for evolmino_find, and so is the order of the refusals; 11 is an output shorter than 4 * height * width bytes.
 *
 * Returns the number of bytes written, or the negated number of a refusal, which changes no byte. Bytes behind those written are unchanged. It
 * keeps nothing either, and takes up to about 40 kilobytes of stack.
 */
int32_t evolmino_shades(const uint8_t *record, size_t record_len,
                        const uint8_t *decisions, size_t decisions_len,
                        uint8_t *output, size_t output_len);

/* Opens the record, decides in order and tells of each cell whether it is square in every finished board that agrees with the decisions, empty
 * in every one, or open, which is square in some and empty in others. The search calls find once on each board that it reaches, the given one
 * first, and each find is a step. It turns back on a reason; else it tries the lowest undecided cell, square, then empty; a full board counts if
 * it is finished. It walks the whole tree, which grows fast with the cells that are undecided. Black and given cells do not bind it: a caller
 * that decides them first, black ones as 0 and given ones as 1, is told the same, mostly in far fewer steps.
 *
 * Returns 0 where each cell is told, 1 where there is no such board, 2 where the search has more steps than the budget, or the negated number of
 * a refusal, which changes no byte. Decisions and pointers are as for evolmino_find, and so is the order of the refusals; 11 is an output shorter
 * than 8 + height * width bytes. Where it does not refuse, the output's first eight bytes are the number of steps, most significant first; after
 * 2 that is the budget. After 0 one byte follows for each cell in row order: 0 for empty, 1 for square, 2 for open. Bytes behind those written
 * are unchanged. A larger budget alters no answer but 2, and with a budget of 0 it is 2. It keeps nothing either, and takes up to about 265
 * kilobytes of stack.
 */
int32_t evolmino_certain(const uint8_t *record, size_t record_len,
                         const uint8_t *decisions, size_t decisions_len,
                         uint64_t budget,
                         uint8_t *output, size_t output_len);

/* As evolmino_find, on a leaf in an edition and with sizes. Edition 1 or 2: in 2 a block may have one square more than the one before it on the
 * arrow, or several. A size is six bytes, three numbers of 16 bits, most significant first: an arrow cell, and the lowest and the highest size that
 * its block may have where the cell is square, ends included; the cells rise from size to size, and a length of 0 is a leaf without sizes. Behind
 * the reasons of evolmino_find, by rising cell: the cell and what shuts its block in, where that cannot reach the lowest size; otherwise the
 * cells of the block, where it is larger than the highest.
 *
 * Returns what evolmino_find returns. The refusals, in this order: the record's 1 to 5; 16 for an edition that is not 1 or 2; 22 for sizes that
 * end inside a range, or have a range that starts at 0, is upside down, sits off an arrow or does not rise above the cell before it; 11 for an
 * output shorter than 2 * (3 * height * width + 1) bytes; then for each decision in turn 12, 7, 9, and 12 for a single byte that is left over. In
 * edition 1 and without sizes it is evolmino_find. Pointers are as there, and the output does not overlap the sizes either. It keeps nothing
 * either, and takes up to about 120 kilobytes of stack.
 */
int32_t evolmino_find_with(const uint8_t *record, size_t record_len,
                           uint32_t edition,
                           const uint8_t *sizes, size_t sizes_len,
                           const uint8_t *decisions, size_t decisions_len,
                           uint8_t *output, size_t output_len);

/* As evolmino_finished, on a leaf in an edition and with sizes, which are as for evolmino_find_with: the block rules are those of the edition, and
 * each sized cell that is square is in a block of a size in its range.
 *
 * Returns 1 for yes, 0 for no, or the negated number of a refusal, in this order: the record's 1 to 5, 16, 22, then for each decision in turn 12,
 * 7, 9, and 12 for a single byte that is left over. In edition 1 and without sizes it is evolmino_finished. With no decisions it tells whether a
 * leaf can be opened. It keeps nothing either, and takes up to about 55 kilobytes of stack.
 */
int32_t evolmino_finished_with(const uint8_t *record, size_t record_len,
                               uint32_t edition,
                               const uint8_t *sizes, size_t sizes_len,
                               const uint8_t *decisions, size_t decisions_len);

/* As evolmino_certain, on a leaf in an edition and with sizes, which are as for evolmino_find_with: its finished boards, by its find.
 *
 * Returns what evolmino_certain returns, and writes the same. The refusals, in this order: the record's 1 to 5, 16, 22; 11 for an output shorter
 * than 8 + height * width bytes; then for each decision in turn 12, 7, 9, and 12 for a single byte that is left over. In edition 1 and without
 * sizes it is evolmino_certain. It keeps nothing either, and takes up to about 270 kilobytes of stack.
 */
int32_t evolmino_certain_with(const uint8_t *record, size_t record_len,
                              uint32_t edition,
                              const uint8_t *sizes, size_t sizes_len,
                              const uint8_t *decisions, size_t decisions_len,
                              uint64_t budget,
                              uint8_t *output, size_t output_len);

/* Turns a record for the page, by turning k, 0 to 7: it flips left and right first if k is 4 or more, then makes k modulo 4 quarter turns
 * clockwise. The turned record has its grid, its cells and its arrows turned; the arrows keep their order. Turning k is undone by turning k
 * where k is 4 or more, else by turning (4 - k) % 4, which gives the same bytes again.
 *
 * Returns the number of bytes written, which is the record's length, or the negated number of a refusal, which changes no byte: the record's 1
 * to 5, then 14 for k above 7, then 15 for an output shorter than the record. Bytes behind those written are unchanged. The pointers are not
 * null, also where a length is 0, and the output does not overlap the record. The call keeps nothing and may be made from any thread, also
 * from several at once; it takes up to about 30 kilobytes of stack.
 */
int32_t evolmino_turn(const uint8_t *record, size_t record_len, uint32_t k,
                      uint8_t *output, size_t output_len);

/* Joins two records of equal height into one leaf: the left grid, a column of black cells, the right grid; the left's arrows and then the right's.
 * A cell of the left grid keeps its row and column, one of the right grid keeps its row, and its column moves on by the left's width + 1. A full
 * board of the joined leaf is finished exactly when the column is empty and each half is finished on its own, in either edition of the rules.
 *
 * Returns the number of bytes written, or the negated number of a refusal, which changes no byte: the left record's 1 to 5, then the right
 * record's 1 to 5, then 18 for unequal heights, then 19 for a joined width above 32, and last 15 for an output shorter than the joined record. A
 * number from 1 to 5 does not tell which record it is of: it is of the left one exactly where that one is refused by itself, as by
 * evolmino_finished with no decisions. EVOLMINO_RECORD bytes are enough for any two. Bytes behind those written are unchanged. The pointers are
 * not null, also where a length is 0; left and right may be the same, and the output overlaps neither. The call keeps nothing and may be made from
 * any thread, also from several at once; it takes up to about 40 kilobytes of stack.
 */
int32_t evolmino_join(const uint8_t *left, size_t left_len,
                      const uint8_t *right, size_t right_len,
                      uint8_t *output, size_t output_len);

/* Reads a setter's file: the record, then from the next byte a grade (3 bits), the solution (one bit a cell, row by row, 1 for a square) and zero
 * bits that fill the last byte. The record's bytes are the file's first ones. The edition is 1 or 2; the file does not tell it. What the call
 * accepts is finished in that edition: black cells are empty, given squares are square, the block rules of the edition hold, and two squares or
 * more stand on every arrow.
 *
 * Returns the record's length in bytes, or the negated number of a refusal, which changes no byte: the record's 1 to 5, then 11 for an output
 * shorter than 1 + height * width bytes, then 20 for what stands behind the record where it is too short or too long or its filler is not zero,
 * then 16 for an edition that is not 1 or 2, and last 21 for a solution that is not finished in it. Here 5 is a filler bit of the record's last
 * byte that is not zero: a whole byte behind it belongs to what follows. The output's first byte is the grade, 0 to 7; one byte follows for each
 * cell in row order, 1 for a square and 0 for empty. Bytes behind those written are unchanged. The pointers are not null, also where a length is
 * 0, and the output does not overlap the file. The call keeps nothing and may be made from any thread, also from several at once; it takes up to
 * about 45 kilobytes of stack.
 */
int32_t evolmino_setter_file(const uint8_t *file, size_t file_len, uint32_t edition,
                             uint8_t *output, size_t output_len);

/* Reads the same file for a player: the record and the grade. Nothing of the solution reaches what it returns or writes: two files that differ in
 * solution bits alone give the same, refusals included.
 *
 * Returns the record's length in bytes, or the negated number of a refusal, which changes no byte: the record's 1 to 5, as for
 * evolmino_setter_file, then 11 for an output without a byte, and last 20. The output's first byte is the grade, 0 to 7. Bytes behind it are
 * unchanged. Pointers are as for evolmino_setter_file. It keeps nothing either, and takes up to about 10 kilobytes of stack.
 */
int32_t evolmino_player_file(const uint8_t *file, size_t file_len,
                             uint8_t *output, size_t output_len);

/* Opens a record in an edition and with sizes: the board is then a fresh one, all undecided and no hint taken. The edition is 1 or 2, as for
 * evolmino_find_with. The sizes are numbers of 16 bits as the machine has them, three for each: an arrow cell, and the lowest and the highest size
 * that its block may have; the cells rise. sizes_len counts the numbers, and 0 is a leaf without sizes. The board keeps all of it, so that no later
 * call takes a record.
 *
 * Returns 0, or the negated number of a refusal, which leaves the board's memory as it was: the record's 1 to 5, then 16 for an edition that is
 * not 1 or 2, then 22 for sizes as evolmino_find_with refuses them. What stands in the memory before does not matter, but it is memory that may be
 * read: set it to zero once, as by static or memset. The pointers are not null, also where a length is 0, and the board does not overlap the record
 * or the sizes. Each call for a board may be made from any thread, and from several at once on different boards, those that take a const board also on
 * the same one; none keeps anything but what is in the board. The others may write the board's memory also where they refuse, with what stood in it. It
 * takes up to about 30 kilobytes of stack.
 */
int32_t evolmino_board_open(const uint8_t *record, size_t record_len,
                            uint32_t edition,
                            const uint16_t *sizes, size_t sizes_len,
                            struct evolmino_board *board);

/* Decides a cell: value 1 for a square, 0 for empty. Black and given cells do not bind it.
 *
 * Returns 0, or the negated number of a refusal, which changes no byte: 6 for a board that no list of calls could leave, then 7 for an index that is
 * height * width or more, then 8 for a value above 1, and last 9 for a cell that is decided already. It takes up to about 5 kilobytes of stack.
 */
int32_t evolmino_board_decide(struct evolmino_board *board, size_t index, uint8_t value);

/* Takes the latest decision back, and leaves nothing of it.
 *
 * Returns 0, or the negated number of a refusal, which changes no byte: 6 for a board that no list of calls could leave, then 10 where no decision
 * stands. It takes up to about 5 kilobytes of stack.
 */
int32_t evolmino_board_undo(struct evolmino_board *board);

/* Finds why the board cannot be finished, and counts a hint for the player who asks, 0 to 3; at 65535 a count stops rising. A literal is a number of
 * 16 bits as the machine has it, value * 32768 + index. The answer is evolmino_find_with's on the same leaf and decisions, whoever asks.
 *
 * Returns the number of literals, which stand at the buffer's front, 0 where no reason applies, or the negated number of a refusal, which changes
 * neither the board nor the buffer: 6 for a board that no list of calls could leave, then 17 for a player above 3, and last 11 for a buffer of fewer
 * than 3 * height * width + 1 literals. literals_len counts literals. What stands behind the last one is unchanged. The pointers are not null, also
 * where a length is 0, and the buffer does not overlap the board. It takes up to about 90 kilobytes of stack.
 */
int32_t evolmino_board_find(struct evolmino_board *board, uint8_t player,
                            uint16_t *literals, size_t literals_len);

/* Tells whether the board is finished, by the rules of its edition and with its sizes, as evolmino_finished_with does.
 *
 * Returns 1 for yes, 0 for no, or -6 for a board that no list of calls could leave. The board is unchanged. It takes up to about 50 kilobytes of
 * stack.
 */
int32_t evolmino_board_finished(const struct evolmino_board *board);

/* Tells which cells are certain, as evolmino_certain_with does on the same leaf and decisions. The board is unchanged, and nothing counts as a hint.
 *
 * Returns and writes what evolmino_certain returns and writes, or the negated number of a refusal, which changes no byte: 6 for a board that no list of
 * calls could leave, then 11 for an output shorter than 8 + height * width bytes. The pointers are not null, also where a length is 0, and the output
 * does not overlap the board. It takes up to about 280 kilobytes of stack.
 */
int32_t evolmino_board_certain(const struct evolmino_board *board,
                               uint64_t budget,
                               uint8_t *output, size_t output_len);

/* Tells how many hints a player took, 0 to 3: the finds of that player that were accepted since the board was opened, or 65535 where they are more.
 *
 * Returns the count, or the negated number of a refusal: 6 for a board that no list of calls could leave, then 17 for a player above 3. The board is
 * unchanged. It takes up to about 5 kilobytes of stack.
 */
int32_t evolmino_board_hints(const struct evolmino_board *board, uint8_t player);

/* Checks a certificate that a leaf has one solution only. The record is opened in an edition with sizes, as evolmino_find_with does. Where 1 is
 * returned, the solution that the certificate claims is finished, and every finished board of the leaf equals it, whoever made the certificate.
 *
 * A certificate is words of three bytes, most significant first. A step is 8388608 + n, n literals (value * 32768 + index), m, and m hints: the places
 * of earlier steps, counted in words. The first step is the claimed solution's: for each cell in row order the literal with the value that the
 * solution does not have, and no hint. The last one has no literal, and nothing follows it. A step closes where its clause, assumed false on top of
 * black cells as empty and given ones as square, comes to a contradiction: each hint's clause has one undecided literal and no true one, and decides
 * it, or is false at the last hint; where none is false, find must give a reason on the cells, or an arrow have fewer than two cells that are not
 * empty.
 *
 * Returns 1, or the negated number of a refusal: 1 to 5 for the record, then 16, then 22, then 23 to 25, then for each step in turn 26 to 29, and
 * last 30. Nothing is written. The pointers are not null, also where a length is 0. It keeps nothing, and takes up to
 * about 105 kilobytes of stack.
 */
int32_t evolmino_unique(const uint8_t *record, size_t record_len,
                        uint32_t edition,
                        const uint8_t *sizes, size_t sizes_len,
                        const uint8_t *certificate, size_t certificate_len);

#ifdef __cplusplus
}
#endif

#endif
