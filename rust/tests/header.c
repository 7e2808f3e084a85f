/* The C header, included twice, its inline functions at their edges, and the buffers that have room for every record and every board: C11 and C++17. */
#include "board.h"
#include "board.h"

static int is_coded(int32_t hundredths, uint64_t code) {
    return board_code(hundredths) == code && board_hundredths(code) == hundredths && !board_is_mark(code);
}

/* the places of the table at their edges: the last seat of a set-up has one, the next has none, and none has one beyond the last of all */
static int are_placed(void) {
    const board_config four = {4, 1, BOARD_POLICY_DEFAULT, 0};
    const board_config most = {BOARD_SEATS, 10, BOARD_POLICY_DEFAULT, 0};
    const board_config more = {UINT64_MAX, 10, BOARD_POLICY_DEFAULT, 0};
    const board_config none = {0, 0, BOARD_POLICY_DEFAULT, 0};
    return board_place(four, 0, 1) == 0 && board_place(four, 0, 4) == 3 && board_place(four, 1, 1) == 31 && board_place(four, 7, 4) == 220 &&
           board_place(most, 7, 31) == BOARD_PLACES - 1 && board_place(more, 7, 31) == BOARD_PLACES - 1 && board_place(four, 0, 5) == BOARD_PLACES &&
           board_place(four, 0, 0) == BOARD_PLACES && board_place(four, 8, 1) == BOARD_PLACES && board_place(four, UINT64_MAX, 1) == BOARD_PLACES &&
           board_place(four, 0, UINT64_MAX) == BOARD_PLACES && board_place(most, 0, 32) == BOARD_PLACES && board_place(more, 0, 32) == BOARD_PLACES &&
           board_place(none, 0, 1) == BOARD_PLACES;
}

static const board_field COUNT = {BOARD_KIND_COUNT, BOARD_STATE_GIVEN, UINT64_MAX};

/* a tuple of as many of the largest count as it can have */
static board_tuple longest_tuple(void) {
    board_tuple tuple = {BOARD_FIELDS, {COUNT, COUNT, COUNT, COUNT, COUNT, COUNT}};
    return tuple;
}

/* the longest record fills its buffer, and reads back as the call; a buffer one byte shorter is refused 10 */
static int is_record_room(void) {
    const board_call call = {UINT32_MAX, BOARD_CALL_CAS, longest_tuple(), longest_tuple()};
    uint8_t record[BOARD_RECORD_BYTES];
    if (board_write(call, record, sizeof record) != BOARD_RECORD_BYTES) {
        return 0;
    }
    const board_read_call read = board_read(record, sizeof record, 0);
    return read.refusal == BOARD_REFUSAL_NONE && read.next == BOARD_RECORD_BYTES && read.call.process == UINT32_MAX &&
           read.call.entry.fields[BOARD_FIELDS - 1].value == UINT64_MAX &&
           board_write(call, record, sizeof record - 1) == BOARD_REFUSED_LENGTH + BOARD_REFUSAL_NO_ROOM;
}

/* the longest script of a board fills its buffer; one byte shorter it is refused 10 */
static int is_board_room(void) {
    const board_config bare = {BOARD_SEATS, 10, BOARD_POLICY_BARE, 0};
    static uint8_t script[BOARD_DUMP_BYTES];
    static board_space space;
    space = board_fresh(bare).space;
    for (space.count = 0; space.count < BOARD_TUPLES; space.count++) {
        space.tuples[space.count] = longest_tuple();
    }
    return board_dump(space, script, sizeof script) == BOARD_DUMP_BYTES &&
           board_dump(space, script, sizeof script - 1) == BOARD_REFUSED_LENGTH + BOARD_REFUSAL_NO_ROOM;
}

/* a whole round of one seat, and the out of another round behind it, follow; begun in the same round, that out strays, and cut it is nobody's fault; seat 2 is
 * above n, and policy 0 has no procedure */
static int are_strays_found(void) {
    uint8_t script[] = {
        1, 0, BOARD_POLICY_DEFAULT,                                             /* the set-up */
        1, BOARD_CALL_OUT, 4, 4, 1, 8, 5, 8, 1, 12, 80,                         /* -40 in round 5 */
        1, BOARD_CALL_RDP, 4, 4, 1, 8, 5, 8, 1, 14,                             /* seat 1 is read */
        1, BOARD_CALL_CAS, 4, 4, 2, 8, 5, 14, 17, 4, 4, 2, 8, 5, 12, 80, 16, 1, /* and decides */
        1, BOARD_CALL_OUT, 4, 4, 1, 8, 0, 8, 1, 12, 80,                         /* -40 in round 0 */
    };
    if (board_strays(script, sizeof script, 1) != 0 || board_strays(script, sizeof script, 2) != BOARD_REFUSED_LENGTH + BOARD_REFUSAL_STRANGER) {
        return 0;
    }
    script[sizeof script - 5] = 5;
    if (board_strays(script, sizeof script, 1) != 4 || board_strays(script, sizeof script, 0) != 0 || board_strays(script, sizeof script - 1, 1) != 0) {
        return 0;
    }
    script[2] = BOARD_POLICY_BARE;
    return board_strays(script, sizeof script, 2) == BOARD_REFUSED_LENGTH + BOARD_REFUSAL_UNSOUND;
}

int main(void) {
    const board_config config = {4, 1, BOARD_POLICY_DEFAULT, 0};
    return !(board_fresh(config).refusal == BOARD_REFUSAL_NONE && are_placed() && is_record_room() && is_board_room() && are_strays_found() && is_coded(0, 1) && is_coded(-1, 2) && is_coded(1, 3) && is_coded(-40, 80) &&
             is_coded(BOARD_LARGEST_OFFSET, 200001) && is_coded(INT32_MAX, UINT32_MAX) && is_coded(INT32_MIN, UINT64_C(4294967296)) &&
             board_is_mark(BOARD_MARK) && board_hundredths(BOARD_MARK) == 0 && board_hundredths(UINT64_C(4294967297)) == INT32_MAX &&
             board_hundredths(UINT64_MAX) == INT32_MAX && board_hundredths(UINT64_MAX - 1) == INT32_MIN && board_refusal_text(UINT64_MAX)[0] == 'n');
}
