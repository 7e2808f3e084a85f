/* A client of the proved library: the worked script's text, which of its seats follow, its first call made by hand, its seven calls one by one, what seat 2
 * proposed by the table of the board that they leave, that board as a script and back, and a round that four seats settle. */
#include <inttypes.h>
#include <stdio.h>
#include <string.h>

#include "board.h"

/* ---- the worked script of document 01 */

enum { SET_UP = 3, FIRST = 11 }; /* the bytes of its set-up, and of its first record */

static const uint8_t worked[] = {
    0x04, 0x01, 0x02,                                                                   /* four seats, one may stray, policy 2 */
    0x01, 0x01, 0x04, 0x04, 0x01, 0x08, 0x00, 0x08, 0x01, 0x0C, 0x50,                   /* seat 1 proposes -40 */
    0x02, 0x01, 0x04, 0x04, 0x01, 0x08, 0x00, 0x08, 0x02, 0x0C, 0x51,                   /* seat 2 proposes 40 */
    0x03, 0x01, 0x04, 0x04, 0x01, 0x08, 0x00, 0x08, 0x03, 0x0C, 0x50,                   /* seat 3 proposes -40 */
    0x04, 0x04, 0x04, 0x04, 0x02, 0x08, 0x00, 0x0E, 0x11,                               /* seat 4 would decide 40 .. */
    0x04, 0x04, 0x02, 0x08, 0x00, 0x0C, 0x51, 0x10, 0x02,                               /* .. with seat 2 alone */
    0x01, 0x04, 0x04, 0x04, 0x02, 0x08, 0x00, 0x0E, 0x11,                               /* seat 1 decides -40 .. */
    0x04, 0x04, 0x02, 0x08, 0x00, 0x0C, 0x50, 0x10, 0x05,                               /* .. with seats 1 and 3 */
    0x02, 0x02, 0x04, 0x04, 0x02, 0x08, 0x00, 0x0E, 0x11,                               /* seat 2 reads the decision */
    0x05, 0x02, 0x01, 0x05                                                              /* there is no seat 5 */
};

static uint8_t text[BOARD_TEXT_BYTES];

/* ---- what is printed */

static void print_field(board_field field) {
    static const char letters[] = {[BOARD_KIND_WORD] = 'w', [BOARD_KIND_COUNT] = 'c', [BOARD_KIND_OFFSET] = 'o', [BOARD_KIND_SEATS] = 's'};
    printf(" %c", letters[field.kind]);
    if (field.kind != BOARD_KIND_OFFSET) {
        printf("%" PRIu64, field.value);
    } else if (board_is_mark(field.value)) {
        putchar('_');
    } else {
        printf("%" PRId32, board_hundredths(field.value));
    }
}

static void print_reply(board_reply reply) {
    static const char *const outcomes[] = {
        [BOARD_OUTCOME_DONE] = "done",         [BOARD_OUTCOME_NONE] = "none", [BOARD_OUTCOME_FOUND] = "found",
        [BOARD_OUTCOME_INSERTED] = "inserted", [BOARD_OUTCOME_HELD] = "held", [BOARD_OUTCOME_REFUSED] = "refused"};
    printf("%s", outcomes[reply.outcome]);
    if (reply.outcome == BOARD_OUTCOME_REFUSED) {
        printf(" %u", (unsigned)reply.refusal);
    }
    for (size_t i = 0; i < reply.tuple.count; i++) {
        print_field(reply.tuple.fields[i]);
    }
    putchar('\n');
}

/* says why something is refused that should not be */
static int refused(const char *what, uint64_t refusal) {
    fprintf(stderr, "%s: refused %" PRIu64 ", %s\n", what, refusal, board_refusal_text(refusal));
    return 1;
}

/* ---- the script whole, its seats watched, its first call made by hand, and call by call */

static int whole(void) {
    uint64_t length = board_script(worked, sizeof worked, text, sizeof text);
    if (length >= BOARD_REFUSED_LENGTH) {
        return refused("the script's text", length - BOARD_REFUSED_LENGTH);
    }
    fwrite(text, 1, (size_t)length, stdout);
    return 0;
}

/* whether the seats of a set follow the procedure in it, or the first record in which one strays */
static int watch(uint64_t set) {
    uint64_t found = board_strays(worked, sizeof worked, set);
    if (found >= BOARD_REFUSED_LENGTH) {
        return refused("the seats that are watched", found - BOARD_REFUSED_LENGTH);
    }
    if (found == 0) {
        printf("set %" PRIu64 ": all follow\n", set);
    } else {
        printf("set %" PRIu64 ": strays in record %" PRIu64 "\n", set, found);
    }
    return 0;
}

/* seat 1 proposes -40 in round 0: what is not named is zero, the template and the state BOARD_STATE_GIVEN too */
static int by_hand(void) {
    board_call call = {.process = 1, .code = BOARD_CALL_OUT};
    uint8_t record[BOARD_RECORD_BYTES];
    call.entry.count = 4;
    call.entry.fields[0] = (board_field){.kind = BOARD_KIND_WORD, .value = BOARD_WORD_PROPOSE};
    call.entry.fields[1] = (board_field){.kind = BOARD_KIND_COUNT, .value = 0};
    call.entry.fields[2] = (board_field){.kind = BOARD_KIND_COUNT, .value = 1};
    call.entry.fields[3] = (board_field){.kind = BOARD_KIND_OFFSET, .value = board_code(-40)};
    uint64_t length = board_write(call, record, sizeof record);
    if (length >= BOARD_REFUSED_LENGTH) {
        return refused("a record", length - BOARD_REFUSED_LENGTH);
    }
    if (length != FIRST || memcmp(record, worked + SET_UP, FIRST) != 0) {
        fputs("the record is not the script's first\n", stderr);
        return 1;
    }
    return 0;
}

static int by_calls(board_space *space) {
    size_t at = SET_UP;
    while (at < sizeof worked) {
        board_read_call read = board_read(worked, sizeof worked, at);
        if (read.refusal != BOARD_REFUSAL_NONE) {
            return refused("a reading", read.refusal);
        }
        board_applied applied = board_apply(*space, read.call);
        *space = applied.space;
        at = read.next;
        printf("seat %" PRIu32 " ", read.call.process);
        print_reply(applied.reply);
    }
    return 0;
}

/* ---- what a seat has proposed in a round, by the board's table */

static int look_up(const board_space *space, uint64_t round, uint64_t seat) {
    size_t place = board_place(space->config, round, seat);
    if (place == BOARD_PLACES || space->table[place] == 0) {
        fputs("no proposal where there should be one\n", stderr);
        return 1;
    }
    printf("seat %" PRIu64 " has proposed %" PRId32 "\n", seat, board_hundredths(space->table[place]));
    return 0;
}

/* ---- a board as a script, and back */

static int bring_back(const board_space *kept) {
    uint8_t script[BOARD_DUMP_BYTES];
    uint64_t length = board_dump(*kept, script, sizeof script);
    if (length >= BOARD_REFUSED_LENGTH) {
        return refused("a board as a script", length - BOARD_REFUSED_LENGTH);
    }
    size_t at = 3;
    board_config config = {.n = script[0], .t = script[1], .policy = script[2]};
    if (config.policy == BOARD_POLICY_CHOICE) {
        config.k = script[at++];
    }
    board_opened opened = board_fresh(config);
    if (opened.refusal != BOARD_REFUSAL_NONE) {
        return refused("its set-up", opened.refusal);
    }
    board_space space = opened.space;
    while (at < length) {
        board_read_call read = board_read(script, (size_t)length, at);
        if (read.refusal != BOARD_REFUSAL_NONE) {
            return refused("its records", read.refusal);
        }
        board_applied applied = board_apply(space, read.call);
        if (applied.reply.outcome != BOARD_OUTCOME_DONE && applied.reply.outcome != BOARD_OUTCOME_INSERTED) {
            print_reply(applied.reply);
            return 1;
        }
        space = applied.space;
        at = read.next;
    }
    if (memcmp(&space, kept, sizeof space) != 0) {
        fputs("another board came back\n", stderr);
        return 1;
    }
    printf("%" PRIu64 " bytes bring %zu tuples back\n", length, space.count);
    return 0;
}

/* ---- a round: each seat makes one call in turn until all have decided */

static int settle(board_space space, const int32_t *offsets, uint32_t seats) {
    board_step steps[BOARD_SEATS];
    uint32_t open = seats;
    for (uint32_t i = 0; i < seats; i++) {
        steps[i] = board_start(space.config, i + 1, 0, 0, offsets[i]);
        if (steps[i].next == BOARD_STEP_REFUSED) {
            return refused("a start", steps[i].refusal);
        }
    }
    while (open > 0) {
        for (uint32_t i = 0; i < seats; i++) {
            if (steps[i].next != BOARD_STEP_CALLS) {
                continue;
            }
            board_applied applied = board_apply(space, steps[i].call);
            space = applied.space;
            printf("seat %" PRIu32 " ", i + 1);
            print_reply(applied.reply);
            steps[i] = board_resume(steps[i].process, applied.reply);
            if (steps[i].next == BOARD_STEP_REFUSED) {
                return refused("an answer", steps[i].refusal);
            }
            if (steps[i].next == BOARD_STEP_DECIDES) {
                printf("seat %" PRIu32 " decides ", i + 1);
                if (steps[i].bottom) {
                    puts("the mark");
                } else {
                    printf("%" PRId32 "\n", steps[i].hundredths);
                }
                open--;
            }
        }
    }
    return 0;
}

int main(void) {
    static const int32_t offsets[] = {-40, 40, 40, -40};
    board_config config = {.n = 4, .t = 1, .policy = BOARD_POLICY_DEFAULT, .k = 0};
    board_opened opened = board_fresh(config);
    if (opened.refusal != BOARD_REFUSAL_NONE) {
        return refused("a fresh board", opened.refusal);
    }
    board_space space = opened.space;
    return whole() || watch(4) || watch(7) || by_hand() || by_calls(&space) || look_up(&space, 0, 2) || bring_back(&space) || settle(opened.space, offsets, 4);
}
