/* A text that comes in pieces, as a C program sees it: cut anywhere, with pieces of no bytes, with states of other
   lengths, moved and made up, and with NULL and length 0 for each buffer. What is due is what the whole text has, and
   what the header says of a state. */
#include "cases.h"

#define ROOM 300
#define STATE UMAREKOZA_STATE_BYTES
#define BLADE_BYTES (sizeof blade - 1)

static uint8_t state[STATE + 8], other[STATE + 8];
static uint8_t table[BLADE_LEN];

/* Whether the state ends as the blade report does, and is not changed by that. */
static int ends_as_blade(size_t state_len)
{
    uint8_t out[ROOM];
    memset(out, 9, sizeof out);
    memcpy(other, state, sizeof state);
    return is(umarekoza_text_end(state, state_len, out, ROOM), 0, 0, BLADE_LEN)
           && memcmp(out, table, BLADE_LEN) == 0 && nines(out, BLADE_LEN, ROOM)
           && memcmp(other, state, sizeof state) == 0;
}

/* Whether the end is refused by this number at this place, and nothing changes. */
static int refused(size_t state_len, size_t room, uint32_t number, uint32_t place)
{
    uint8_t out[ROOM];
    memset(out, 9, sizeof out);
    memcpy(other, state, sizeof state);
    return is(umarekoza_text_end(state, state_len, out, room), number, place, 0) && nines(out, 0, ROOM)
           && memcmp(other, state, sizeof state) == 0;
}

static void take(const void *bytes, size_t length)
{
    umarekoza_text_piece(state, STATE, (const uint8_t *)bytes, length);
}

static void cut_anywhere(void)
{
    size_t at;
    for (at = 0; at <= BLADE_BYTES; at++) {
        umarekoza_text_start(state, STATE);
        take(blade, at);
        take(NULL, 0);
        take(blade + at, BLADE_BYTES - at);
        if (!ends_as_blade(STATE))
            break;
    }
    expect(at > BLADE_BYTES, "the blade report in two pieces");
    umarekoza_text_start(state, STATE);
    for (at = 0; at < BLADE_BYTES; at++) {
        take(NULL, 0);
        take(blade + at, 1);
    }
    expect(ends_as_blade(STATE), "the blade report byte by byte");
    expect(refused(STATE, BLADE_LEN - 1, 11, 0), "a table that does not fit");
    expect(ends_as_blade(STATE), "the end asked again");
}

/* The end may be asked at any time, and more pieces may follow. */
static void early_ends(void)
{
    umarekoza_text_start(state, STATE);
    expect(refused(STATE, ROOM, 3, 1), "a text of no bytes");
    take(blade, 39);
    expect(refused(STATE, ROOM, 3, 1), "a first line without its LF");
    take(blade + 39, 1);
    expect(refused(STATE, ROOM, 3, 2), "a text of one line");
    take(blade + 40, BLADE_BYTES - 41);
    expect(refused(STATE, ROOM, 3, 23), "a last line without its LF");
    take("\n", 1);
    expect(ends_as_blade(STATE), "an LF alone");
    take("Sum: 2 bytes\n", 13);
    expect(refused(STATE, ROOM, 5, 24), "a line more");
    take("Sum: (((((1 bytes.\n\t", 20);
    expect(refused(STATE, ROOM, 2, 0), "a byte that is not allowed");
    umarekoza_text_start(state, STATE);
    take(blade, BLADE_BYTES);
    expect(ends_as_blade(STATE), "a start anew");
}

/* The last line of the blade report with a remark that makes it 1,024 bytes, or one more. */
static void long_line(size_t first)
{
    char remark[1024 - 13];
    memset(remark, 'x', sizeof remark);
    remark[0] = ' ';
    umarekoza_text_start(state, STATE);
    take(blade, BLADE_BYTES - 1);
    take(remark, first);
    take(remark + first, sizeof remark - first);
    take("\n", 1);
    expect(ends_as_blade(STATE), "a line of 1,024 bytes");
    umarekoza_text_start(state, STATE);
    take(blade, BLADE_BYTES - 1);
    take(remark, first);
    take(remark + first, sizeof remark - first);
    take("x\n", 2);
    expect(refused(STATE, ROOM, 3, 23), "a line of 1,025 bytes");
}

static void states_of_other_lengths(void)
{
    memset(state, 9, sizeof state);
    umarekoza_text_start(state, STATE - 1);
    umarekoza_text_piece(state, STATE - 1, BYTES(blade));
    expect(nines(state, 0, sizeof state), "a state that is too short");
    expect(refused(STATE - 1, ROOM, 11, 0), "the end of a state that is too short");
    umarekoza_text_start(NULL, 0);
    umarekoza_text_piece(NULL, 0, NULL, 0);
    expect(is(umarekoza_text_end(NULL, 0, NULL, 0), 11, 0, 0), "no state and no output");
    umarekoza_text_start(state, sizeof state);
    umarekoza_text_piece(state, sizeof state, BYTES(blade));
    expect(ends_as_blade(sizeof state) && ends_as_blade(STATE), "a state that is longer");
    expect(nines(state, STATE, sizeof state), "what lies beyond a state");
    expect(is(umarekoza_text_end(state, STATE, NULL, 0), 11, 0, 0), "no output");
}

/* A state is bytes: it may be stored between pieces. */
static void moved(void)
{
    static uint8_t stored[STATE];
    memset(state, 0xFF, sizeof state);
    umarekoza_text_start(state, STATE);
    take(blade, 200);
    memcpy(stored, state, STATE);
    memset(state, 0x55, sizeof state);
    memcpy(state, stored, STATE);
    take(blade + 200, BLADE_BYTES - 200);
    expect(ends_as_blade(STATE), "a state that was stored");
}

/* Start leaves the same bytes, whatever a state held before, and so do the same pieces behind it. */
static void same_bytes(void)
{
    size_t at, same = 0;
    memset(state, 0xFF, STATE);
    for (at = 0; at < STATE; at++)
        other[at] = (uint8_t)(at * 7);
    umarekoza_text_start(state, STATE);
    umarekoza_text_start(other, STATE);
    expect(memcmp(state, other, STATE) == 0, "what start leaves of two states");
    for (at = 0; at < BLADE_BYTES; at++) {
        take(blade + at, 1);
        umarekoza_text_piece(other, STATE, (const uint8_t *)blade + at, 1);
        same += memcmp(state, other, STATE) == 0;
    }
    expect(same == BLADE_BYTES, "what the same pieces leave of two states");
}

/* A state that no pieces left: any answer, but a refusal changes no byte. */
static void made_up(void)
{
    uint32_t seed = 1, i, j;
    for (i = 0; i < 2000; i++) {
        uint8_t out[ROOM];
        struct umarekoza_answer end;
        if (i % 2 == 0)
            umarekoza_text_start(state, STATE);
        for (j = 0; j < 24; j++) {
            seed = seed * 1664525 + 1013904223;
            state[i % 3 == 0 ? j : seed >> 8 & 31] = (uint8_t)(seed >> 24);
        }
        memset(state + STATE, 9, 8);
        take(blade, i % BLADE_BYTES);
        memset(out, 9, sizeof out);
        end = umarekoza_text_end(state, STATE, out, ROOM - 8);
        expect(end.number == 0 ? end.place == 0 && end.length <= ROOM - 8 : end.length == 0, "an answer's shape");
        expect(nines(out, end.number == 0 ? end.length : 0, ROOM), "the output of a state made up");
        expect(nines(state, STATE, sizeof state), "what lies beyond a state made up");
    }
}

static uint32_t two(size_t at)
{
    return state[at] + 256u * state[at + 1];
}

/* The bytes of a state that the header names. */
static void layout(void)
{
    umarekoza_text_start(state, STATE);
    expect(two(0) == 0 && two(2) == 0 && two(4) == 0 && state[6] == 0 && state[20] == 0, "a fresh state");
    take(blade, 11);
    expect(two(0) == 11 && two(2) == 11 && two(4) == 0 && state[6] == 0, "the numbers of an unfinished line");
    expect(memcmp(state + 24, blade, 11) == 0, "the unfinished line");
    take(blade + 11, BLADE_BYTES - 11);
    expect(two(0) == BLADE_BYTES && two(2) == 0 && two(4) == 23, "the numbers of a whole text");
    expect(state[7] == 16 && state[8] == 12 && state[10] == 7 && state[11] == 7, "W, NAME, cells and lines");
    expect(state[12] == 7 && state[13] == 0 && state[20] == 0 && state[21] == 0, "the fields, and no refusal");
    expect(state[6] == 11 && two(14) == 52 && two(16) == 52 && two(18) == 201, "the stage, and where parts end");
    expect(two(1308) == 0 && two(1310) == 1 && two(1312) == 1 && two(1314) == 0, "how often fields are read");
    expect(memcmp(state + 1564, "\0\2\1V\0\1\1L\0\5\5Cells\0\10\5Blade", 24) == 0, "the cells");
    expect(memcmp(state + 7523 + 1024, "V\0\0\0\0\0\0\0L\0\0\0\0\0\0\0N", 18) == 0, "short names");
    expect(memcmp(state + 10723 + 40, "On Loan", 8) == 0 && state[10723 + 79] == 0, "a label");
    expect(memcmp(state + 15843, "Blade Report\40\0\14\0\0\0\7\0Version", 27) == 0, "NAME and a record");
    take("x\n", 2);
    expect(state[20] == 5 && two(22) == 24, "the lowest refusal");
    take("\t", 1);
    expect(state[6] == 12 && state[20] == 2 && two(22) == 0, "no stage");
}

/* The lines of a row that is not ended, which have 65 bytes of room each. */
static void open_row(void)
{
    static const char text[] = "A Tall Row is formatted as follows:\n\n 0\n 0 1 2 3 4 5 6 7\n+-+-+-+-+-+-+-+-+\n"
                               "| Flag  | Long  |\n| ends  | lines |\n";
    umarekoza_text_start(state, STATE);
    take(text, sizeof text - 1);
    expect(state[6] == 6 && state[9] == 2 && state[10] == 0, "the numbers of an open row");
    expect(memcmp(state + 1048, "| Flag  | Long  |", 17) == 0, "the first line of a row");
    expect(memcmp(state + 1048 + 65, "| ends  | lines |", 17) == 0, "the second line of a row");
}

int main(void)
{
    size_t first;
    expect(UMAREKOZA_STATE_BYTES <= 131072, "the bytes of a state");
    expect(is(umarekoza_write_table(BYTES(blade), table, BLADE_LEN), 0, 0, BLADE_LEN), "the blade report");
    cut_anywhere();
    early_ends();
    for (first = 0; first <= 1011; first += 337)
        long_line(first);
    states_of_other_lengths();
    moved();
    same_bytes();
    made_up();
    layout();
    open_row();
    return failed;
}
