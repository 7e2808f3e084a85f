/* The shared offset board, for C from C11 on and C++ from C++11 on: the functions of crates/board_c, proved, in target/staticlib/libboard_c.a
 * (`.ci/library`), a static library for x86-64 Linux and for no other target. Header and library must be of the same checkout.
 *
 * Structs cross by value, a slice as its pointer and its length, and a number stands for each case of an enum. Every function has an answer for every
 * number and struct that is passed, and keeps none of them. A pointer must be valid for that many bytes, writable where the function writes, and the two
 * slices of board_script must not overlap; a pointer beside the length 0 is not read. docs/FIRMWARE.md has the stack that each function needs. */
#ifndef BOARD_H
#define BOARD_H

#if !defined(__x86_64__) || !defined(__linux__)
#error "the shared offset board is a library for x86-64 Linux only"
#endif

#include <stddef.h>
#include <stdint.h>

/* 211 is document 01 with the requests 2.1 to 2.11 of document 02. It grows with each request that lands: with 2.12 it is 212. */
#define BOARD_VERSION 211

#ifdef __cplusplus
#define BOARD_ASSERT static_assert
#define BOARD_CAST(type, value) static_cast<type>(value)
extern "C" {
#else
#define BOARD_ASSERT _Static_assert
#define BOARD_CAST(type, value) ((type)(value))
#endif

/* ---- bounds */

enum {
    BOARD_SEATS = 31,              /* the most seats */
    BOARD_ROUNDS = 8,              /* rounds are 0 to 7 */
    BOARD_CHOICES = 8,             /* the most choices of policy 3: k is 2 to this */
    BOARD_POSITIONS = 112,         /* the last position of the shared list; the first is 1 */
    BOARD_FIELDS = 6,              /* the most fields of a tuple */
    BOARD_TUPLES = 256,            /* the most tuples of a board */
    BOARD_PLACES = 248,            /* the places of a board's table: 31 for each round */
    BOARD_LARGEST_OFFSET = 100000, /* offsets are hundredths of a needle space, from minus this to this */
    BOARD_SCRIPT_BYTES = 65536,    /* the most bytes of a script */
    BOARD_TEXT_BYTES = 1048640,    /* a buffer of this size has room for every script's text */
    BOARD_RECORD_BYTES = 140,      /* and one of this size for every record */
    BOARD_DUMP_BYTES = 17667       /* and one of this size for every board written back as a script */
};

/* ---- numbers, by what they are: each name has the sort behind BOARD_ */

/* what the board permits */
enum {
    BOARD_POLICY_BARE = 0,     /* everything */
    BOARD_POLICY_WEAK = 1,     /* one decision a round */
    BOARD_POLICY_DEFAULT = 2,  /* one decision a round that proposals bear, or the mark */
    BOARD_POLICY_CHOICE = 3,   /* one decision a round among k choices, never the mark */
    BOARD_POLICY_LIST = 4,     /* the shared list */
    BOARD_POLICY_ANNOUNCED = 5 /* the shared list with announcements */
};

/* what a call is */
enum { BOARD_CALL_OUT = 1, BOARD_CALL_RDP = 2, BOARD_CALL_INP = 3, BOARD_CALL_CAS = 4 };

/* a field's kind, with the values that it takes */
enum {
    BOARD_KIND_WORD = 1,   /* 0 to 255 */
    BOARD_KIND_COUNT = 2,  /* 0 to 18,446,744,073,709,551,615: every value */
    BOARD_KIND_OFFSET = 3, /* the code of an offset, or the mark */
    BOARD_KIND_SEATS = 4   /* a set of seats: seat q is the bit worth 2 to the power q - 1 */
};

/* a field's state: a template's field may be any or open */
enum { BOARD_STATE_GIVEN = 0, BOARD_STATE_ANY = 1, BOARD_STATE_OPEN = 2 };

/* the first word of a tuple that a policy knows, with the fields behind it */
enum {
    BOARD_WORD_PROPOSE = 1,  /* a proposal: count round, count seat, offset */
    BOARD_WORD_DECISION = 2, /* a decision: count round, offset, and under policies 2 and 3 the seats that bear it */
    BOARD_WORD_LISTED = 3,   /* an entry of the shared list: count position, count seat, count serial, offset */
    BOARD_WORD_ANNOUNCED = 4 /* an announcement: count seat, count serial, offset */
};

/* what a call was answered */
enum {
    BOARD_OUTCOME_DONE = 0,
    BOARD_OUTCOME_NONE = 1,
    BOARD_OUTCOME_FOUND = 2,
    BOARD_OUTCOME_INSERTED = 3,
    BOARD_OUTCOME_HELD = 4,
    BOARD_OUTCOME_REFUSED = 5
};

/* where a seat's procedure stands: its out, a reading, its cas, or the decision */
enum { BOARD_PHASE_PROPOSING = 0, BOARD_PHASE_READING = 1, BOARD_PHASE_DECIDING = 2, BOARD_PHASE_DECIDED = 3 };

/* what a seat does next: the call beside it, nothing more for it has decided, or nothing for it was refused */
enum { BOARD_STEP_CALLS = 0, BOARD_STEP_DECIDES = 1, BOARD_STEP_REFUSED = 2 };

/* why something is refused; board_refusal_text has the words */
enum {
    BOARD_REFUSAL_NONE = 0,
    BOARD_REFUSAL_UNSOUND = 1,
    BOARD_REFUSAL_CUT = 2,
    BOARD_REFUSAL_BEYOND = 3,
    BOARD_REFUSAL_UNKNOWN = 4,
    BOARD_REFUSAL_MISSHAPEN = 5,
    BOARD_REFUSAL_STRANGER = 6,
    BOARD_REFUSAL_DENIED = 7,
    BOARD_REFUSAL_FULL = 8,
    BOARD_REFUSAL_LONG_SCRIPT = 9,
    BOARD_REFUSAL_NO_ROOM = 10,
    BOARD_REFUSAL_UNFIT = 11,
    BOARD_REFUSAL_SECOND_PROPOSAL = 12,
    BOARD_REFUSAL_UNBORNE = 13,
    BOARD_REFUSAL_UNREACHED = 14,
    BOARD_REFUSAL_UNSCRIPTED = 15
};

/* The words of a refusal, for every number. */
static inline const char *board_refusal_text(uint64_t refusal) {
    switch (refusal) {
    case 0: return "not refused";
    case 1: return "the set-up is not sound, or the board or the seat's state that was handed in is not well formed; of a start, and of seats that are watched, the policy is not 2 or 3";
    case 2: return "the bytes end inside a number or a record";
    case 3: return "a number is too long or not shortest, or a record's seat or a value is beyond its bound; of a start, the round is above 7 or the offset may not be proposed";
    case 4: return "the call, or the kind or state of a field, is unknown";
    case 5: return "a tuple has no field or more than six, an entry has a field that is not given, or an unused part is not zero";
    case 6: return "the seat, or one that is to be watched, is 0 or above n";
    case 7: return "the policy does not permit the call, for another cause than 12 and 13";
    case 8: return "an out, or a cas that nothing matches, on 256 tuples";
    case 9: return "the script has more than 65,536 bytes";
    case 10: return "the buffer is too short";
    case 11: return "the answer does not fit the seat's state";
    case 12: return "a tuple of word 1, that round and that seat stands already, whatever its offset";
    case 13: return "the set of the cas does not bear its offset";
    case 14: return "no calls make this board";
    case 15: return "a board of policy 5 is not written back as a script";
    default: return "no refusal has this number";
    }
}

/* A length, or a record's number, is below this; a refusal is this plus its number. */
#define BOARD_REFUSED_LENGTH UINT64_C(4294967296)

/* ---- the value of an offset's field */

/* that of the mark */
#define BOARD_MARK UINT64_C(0)

/* Whether a code is the mark: 1 or 0. */
static inline int board_is_mark(uint64_t code) {
    return code == BOARD_MARK;
}

/* The code of an offset in hundredths: 1 + 2z for z from zero up, -2z for z below zero. It is never the mark, and each z has its own; beyond
 * BOARD_LARGEST_OFFSET too, where the board refuses it 3. */
static inline uint64_t board_code(int32_t hundredths) {
    const int64_t z = hundredths;
    return BOARD_CAST(uint64_t, z < 0 ? -2 * z : 1 + 2 * z);
}

/* The offset of a code, in hundredths: of board_code(z) it is z. Of the mark it is 0, as of the offset 0: board_is_mark tells them apart. Of a code that no z
 * has it is INT32_MAX, or INT32_MIN if the code is even, which are no offsets of a board. */
static inline int32_t board_hundredths(uint64_t code) {
    const uint64_t size = code / 2;
    if (code % 2 == 1) {
        return size > INT32_MAX ? INT32_MAX : BOARD_CAST(int32_t, size);
    }
    return size > INT32_MAX ? INT32_MIN : -BOARD_CAST(int32_t, size);
}

/* ---- structs
 *
 * No struct has a byte of padding: two boards are equal exactly if their bytes are. */

typedef struct {
    uint32_t kind;
    uint32_t state;
    uint64_t value; /* 0 if the field is not given */
} board_field;

typedef struct {
    size_t count;
    board_field fields[BOARD_FIELDS]; /* those behind the count are zero */
} board_tuple;

typedef struct {
    uint32_t process; /* the seat that calls */
    uint32_t code;
    board_tuple template_; /* zero where the call has none; C++ keeps the plain word for itself */
    board_tuple entry;
} board_call;

/* the set-up: n seats, t that may stray, the policy, and k, which is 0 but under policy 3 */
typedef struct {
    uint64_t n;
    uint64_t t;
    uint64_t policy;
    uint64_t k;
} board_config;

/* A board: its tuples, oldest first, those behind the count zero; and the table of who proposed what. Under policies 2 and 3 the place of a round and a seat,
 * 31 * round + (seat - 1), has the code of the offset of the one proposal there; 0 is none. All others, and under the other policies all, are 0. A board
 * whose table is not that of its tuples is refused 1: one made by hand has it filled in, or is made from board_fresh by calls, which keep it. */
typedef struct {
    board_config config;
    size_t count;
    board_tuple tuples[BOARD_TUPLES];
    uint64_t table[BOARD_PLACES];
} board_space;

/* The place of a round and a seat in the table of a board with this set-up; BOARD_PLACES where there is none: of a round above 7, of seat 0, and of a seat
 * above n or above BOARD_SEATS. */
static inline size_t board_place(board_config config, uint64_t round, uint64_t seat) {
    if (round >= BOARD_ROUNDS || seat == 0 || seat > config.n || seat > BOARD_SEATS) {
        return BOARD_PLACES;
    }
    return BOARD_SEATS * round + (seat - 1);
}

typedef struct {
    uint32_t outcome;
    uint32_t refusal;
    board_tuple tuple; /* found or held, else zero */
} board_reply;

typedef struct {
    uint64_t refusal;
    board_space space; /* zero beside a refusal */
} board_opened;

typedef struct {
    board_reply reply;
    board_space space;
} board_applied;

typedef struct {
    uint64_t refusal;
    size_t next;     /* the place behind the record; 0 beside a refusal */
    board_call call; /* zero beside a refusal */
} board_read_call;

/* a seat's state in one round */
typedef struct {
    board_config config;
    uint32_t process;
    uint32_t phase;
    uint64_t round;
    uint64_t value; /* the seat asked, while reading; the decision's code, once decided; else 0 */
    uint64_t found[BOARD_SEATS];
} board_process;

typedef struct {
    uint32_t next;
    uint32_t refusal;
    uint32_t bottom;    /* 1 if the decision is the mark */
    int32_t hundredths; /* the decision, 0 if it is the mark or there is none */
    board_process process;
    board_call call; /* what it calls next, else zero */
} board_step;

/* ---- what must agree with the library */

BOARD_ASSERT(BOARD_PLACES == BOARD_ROUNDS * BOARD_SEATS, "BOARD_PLACES");

#define BOARD_SIZE(type, bytes) BOARD_ASSERT(sizeof(type) == (bytes), #type)
#define BOARD_AT(type, field, bytes) BOARD_ASSERT(offsetof(type, field) == (bytes), #type "." #field)

BOARD_SIZE(board_field, 16);
BOARD_AT(board_field, kind, 0);
BOARD_AT(board_field, state, 4);
BOARD_AT(board_field, value, 8);
BOARD_SIZE(board_tuple, 104);
BOARD_AT(board_tuple, count, 0);
BOARD_AT(board_tuple, fields, 8);
BOARD_SIZE(board_call, 216);
BOARD_AT(board_call, process, 0);
BOARD_AT(board_call, code, 4);
BOARD_AT(board_call, template_, 8);
BOARD_AT(board_call, entry, 112);
BOARD_SIZE(board_config, 32);
BOARD_AT(board_config, n, 0);
BOARD_AT(board_config, t, 8);
BOARD_AT(board_config, policy, 16);
BOARD_AT(board_config, k, 24);
BOARD_SIZE(board_space, 28648);
BOARD_AT(board_space, config, 0);
BOARD_AT(board_space, count, 32);
BOARD_AT(board_space, tuples, 40);
BOARD_AT(board_space, table, 26664);
BOARD_SIZE(board_reply, 112);
BOARD_AT(board_reply, outcome, 0);
BOARD_AT(board_reply, refusal, 4);
BOARD_AT(board_reply, tuple, 8);
BOARD_SIZE(board_opened, 28656);
BOARD_AT(board_opened, refusal, 0);
BOARD_AT(board_opened, space, 8);
BOARD_SIZE(board_applied, 28760);
BOARD_AT(board_applied, reply, 0);
BOARD_AT(board_applied, space, 112);
BOARD_SIZE(board_read_call, 232);
BOARD_AT(board_read_call, refusal, 0);
BOARD_AT(board_read_call, next, 8);
BOARD_AT(board_read_call, call, 16);
BOARD_SIZE(board_process, 304);
BOARD_AT(board_process, config, 0);
BOARD_AT(board_process, process, 32);
BOARD_AT(board_process, phase, 36);
BOARD_AT(board_process, round, 40);
BOARD_AT(board_process, value, 48);
BOARD_AT(board_process, found, 56);
BOARD_SIZE(board_step, 536);
BOARD_AT(board_step, next, 0);
BOARD_AT(board_step, refusal, 4);
BOARD_AT(board_step, bottom, 8);
BOARD_AT(board_step, hundredths, 12);
BOARD_AT(board_step, process, 16);
BOARD_AT(board_step, call, 320);

/* no struct has a byte of padding: the size is the sum of the members' */
#define BOARD_SUM(type, bytes) BOARD_ASSERT(sizeof(type) == (bytes), #type)

BOARD_SUM(board_field, 2 * sizeof(uint32_t) + sizeof(uint64_t));
BOARD_SUM(board_tuple, sizeof(size_t) + BOARD_FIELDS * sizeof(board_field));
BOARD_SUM(board_call, 2 * sizeof(uint32_t) + 2 * sizeof(board_tuple));
BOARD_SUM(board_config, 4 * sizeof(uint64_t));
BOARD_SUM(board_space, sizeof(board_config) + sizeof(size_t) + BOARD_TUPLES * sizeof(board_tuple) + BOARD_PLACES * sizeof(uint64_t));
BOARD_SUM(board_reply, 2 * sizeof(uint32_t) + sizeof(board_tuple));
BOARD_SUM(board_opened, sizeof(uint64_t) + sizeof(board_space));
BOARD_SUM(board_applied, sizeof(board_reply) + sizeof(board_space));
BOARD_SUM(board_read_call, sizeof(uint64_t) + sizeof(size_t) + sizeof(board_call));
BOARD_SUM(board_process, sizeof(board_config) + 2 * sizeof(uint32_t) + (2 + BOARD_SEATS) * sizeof(uint64_t));
BOARD_SUM(board_step, 3 * sizeof(uint32_t) + sizeof(int32_t) + sizeof(board_process) + sizeof(board_call));

#undef BOARD_SIZE
#undef BOARD_AT
#undef BOARD_SUM
#undef BOARD_ASSERT
#undef BOARD_CAST

/* ---- functions */

/* Runs a script and puts its text at the start of the buffer: the text's length. Refused: 10, and then the buffer is as before; what is wrong with the
 * script stands in its text. */
uint64_t board_script(const uint8_t *bytes, size_t length, uint8_t *buffer, size_t room);

/* A fresh board. Refused: 1 for a set-up that is not sound. */
board_opened board_fresh(board_config config);

/* A call on a board: the reply, and the board afterwards. Refused, and the board as before: 1 for a board that is not well formed, then 3 to 5 for what is
 * wrong with the call, then 6, then 7, 12 or 13 by the policy, then 8. */
board_applied board_apply(board_space space, board_call call);

/* Starts a seat in a round with its proposal, the mark if `bottom` is not 0 (which is refused): its first call. Refused: 1 for a set-up that is not
 * sound, or of another policy than 2 and 3; then 6; then 3. */
board_step board_start(board_config config, uint32_t process, uint64_t round, uint32_t bottom, int32_t hundredths);

/* Hands a seat the board's reply to its call: its next call, or its decision. Refused, and the state as before: 1 for a state that is not well formed,
 * then 11 for a reply that does not fit. Once decided it repeats its decision to every reply. */
board_step board_resume(board_process process, board_reply reply);

/* The call whose record stands at a place of the bytes, and the place behind it. Refused: 2 to 5, the first from the left. */
board_read_call board_read(const uint8_t *bytes, size_t length, size_t at);

/* Puts the record of a call at the start of the buffer: the record's length. Refused, and the buffer as before: 3 to 5, then 10. */
uint64_t board_write(board_call call, uint8_t *buffer, size_t room);

/* Puts a script whose run ends in the board at the start of the buffer: the script's length. Refused, and the buffer as before: 1, then 15, then 14,
 * then 10. */
uint64_t board_dump(board_space space, uint8_t *buffer, size_t room);

/* Runs a script and finds the first record in which a seat of the set (seat k is the bit worth 2^(k - 1)) makes a call that the procedure would not make
 * there: its number, from 1 over all records; or 0, where all of them follow. Refused: 9, then 2 or 3 for a set-up that can't be read, then 1 for one that
 * is not sound or of another policy than 2 and 3, then 6 for a set with a seat above n, each as BOARD_REFUSED_LENGTH plus its number. A record that can't
 * be read ends the script and is never the answer. */
uint64_t board_strays(const uint8_t *bytes, size_t length, uint64_t set);

#ifdef __cplusplus
}
#endif

#endif
