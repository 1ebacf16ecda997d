/* Fields cut out of a table and put in, as a C program sees it: accepted and each refusal, with NULL and length 0 for
   each buffer, and what the output holds afterwards. What is due follows from documents 01 and 02: the records of the
   blade report and of a small page, put together by hand. */
#include "cases.h"

/* Three fields of which the last two read the second: one in its own constraint, one in its width. */
static const char chain[] =
    "A Chain is formatted as follows:\n"
    "\n"
    " 0\n"
    " 0 1 2 3 4 5 6 7\n"
    "+-+-+-+-+-+-+-+-+\n"
    "|       A       |\n"
    "+-+-+-+-+-+-+-+-+\n"
    "|       N       |\n"
    "+-+-+-+-+-+-+-+-+\n"
    ":       D       :\n"
    "+-+-+-+-+-+-+-+-+\n"
    "\n"
    "where:\n"
    "\n"
    "A: 1 byte.\n"
    "N: 1 byte; N < 9.\n"
    "D: N bytes.\n";

/* Its table: the head of 15 bytes, A of 17, N of 25, D of 21, the end. */
#define CHAIN_LEN 82
static const uint8_t chain_table[CHAIN_LEN] = {
    0x0F, 0, 1, 0, 8, 0, 3, 0, 5, 0, 'C', 'h', 'a', 'i', 'n',
    0x11, 0, 12, 0, 0, 0, 1, 0, 'A', 0, 0, 8, 0, 0, 0, 0, 0,
    0x19, 0, 12, 0, 1, 0, 1, 0, 'N', 0, 0, 8, 0, 8, 0, 0x22, 2, 1, 1, 9, 0, 0, 0, 0, 0,
    0x15, 0, 13, 0, 0, 0, 1, 0, 'D', 0, 0, 8, 0, 2, 0, 2, 1, 0, 0, 0, 0,
    4, 0, 5, 0};

/* The same without A: N is field 0 now, for itself and for D. */
static const uint8_t shorter[CHAIN_LEN - 17] = {
    0x0F, 0, 1, 0, 8, 0, 2, 0, 5, 0, 'C', 'h', 'a', 'i', 'n',
    0x19, 0, 12, 0, 1, 0, 1, 0, 'N', 0, 0, 8, 0, 8, 0, 0x22, 2, 0, 1, 9, 0, 0, 0, 0, 0,
    0x15, 0, 13, 0, 0, 0, 1, 0, 'D', 0, 0, 8, 0, 2, 0, 2, 0, 0, 0, 0, 0,
    4, 0, 5, 0};

/* The record of A with another number in it, and a field of a byte that reads the second one in its condition. */
static const uint8_t a_record[17] = {0x11, 0, 12, 0, 0xEE, 0xEE, 1, 0, 'A', 0, 0, 8, 0, 0, 0, 0, 0};
static const uint8_t tail_record[28] = {0x1C, 0, 12, 0, 7, 0, 4, 0, 'T', 'a',  'i', 'l', 0, 0,
                                        8,    0, 0,  0, 8, 0, 0x20, 2, 1, 1, 1, 0, 0, 0};

static uint8_t blade_table[BLADE_LEN];
static uint8_t out[300];

/* Whether the output holds this, and beyond it what it held. */
static int holds(const uint8_t *due, size_t length)
{
    return memcmp(out, due, length) == 0 && nines(out, length, sizeof out);
}

static void cut_refused(void)
{
    memset(out, 9, sizeof out);
    expect(is(umarekoza_cut_fields(NULL, 0, 0, 0, NULL, 0), 21, 0, 0), "cutting from nothing");
    expect(is(umarekoza_cut_fields(NULL, 0, 9, 0, out, 300), 21, 0, 0), "cutting from no table");
    expect(is(umarekoza_cut_fields(chain_table, CHAIN_LEN - 1, 0, 0, out, 300), 21, 0, 0), "cutting from a part");
    expect(is(umarekoza_cut_fields(chain_table, CHAIN_LEN, 1, 0, out, 300), 30, 0, 0), "an empty run");
    expect(is(umarekoza_cut_fields(chain_table, CHAIN_LEN, 0, 3, out, 300), 30, 0, 0), "a run beyond the fields");
    expect(is(umarekoza_cut_fields(chain_table, CHAIN_LEN, SIZE_MAX, SIZE_MAX, out, 300), 30, 0, 0), "no such field");
    expect(is(umarekoza_cut_fields(chain_table, CHAIN_LEN, 0, SIZE_MAX, out, 300), 30, 0, 0), "far beyond the fields");
    expect(is(umarekoza_cut_fields(chain_table, CHAIN_LEN, 1, 1, out, 300), 31, 3, 0), "D reads N");
    expect(is(umarekoza_cut_fields(chain_table, CHAIN_LEN, 0, 1, NULL, 0), 31, 3, 0), "D still reads N");
    expect(is(umarekoza_cut_fields(chain_table, CHAIN_LEN, 0, 2, out, 300), 34, 0, 0), "no field is left");
    expect(is(umarekoza_cut_fields(chain_table, CHAIN_LEN, 0, 0, NULL, 0), 11, 0, 0), "cutting to no output");
    expect(is(umarekoza_cut_fields(chain_table, CHAIN_LEN, 0, 0, out, sizeof shorter - 1), 11, 0, 0),
           "cutting to a short output");
    expect(is(umarekoza_cut_fields(blade_table, BLADE_LEN, 1, 1, out, 300), 31, 5, 0), "Borrower reads On Loan");
    expect(is(umarekoza_cut_fields(blade_table, BLADE_LEN, 0, 4, out, 300), 31, 6, 0), "Readings reads Cells");
    expect(is(umarekoza_cut_fields(blade_table, BLADE_LEN, 3, 3, out, 300), 34, 0, 0), "half a row is left");
    expect(nines(out, 0, sizeof out), "an output after refused cuts");
}

static void cut(void)
{
    uint8_t due[BLADE_LEN];
    memset(out, 9, sizeof out);
    expect(is(umarekoza_cut_fields(chain_table, CHAIN_LEN, 0, 0, out, 300), 0, 0, sizeof shorter), "A cut out");
    expect(holds(shorter, sizeof shorter), "what is left without A");
    memset(out, 9, sizeof out);
    expect(is(umarekoza_cut_fields(chain_table, CHAIN_LEN, 0, 0, out, sizeof shorter), 0, 0, sizeof shorter),
           "A cut out with just room enough");
    expect(holds(shorter, sizeof shorter), "what is left without A, with just room enough");
    /* Without Borrower there are 6 fields, and none reads On Loan. */
    memcpy(due, blade_table, 129);
    memcpy(due + 129, blade_table + 164, BLADE_LEN - 164);
    due[6] = 6;
    due[58] = 0;
    memset(out, 9, sizeof out);
    expect(is(umarekoza_cut_fields(blade_table, BLADE_LEN, 4, 4, out, 300), 0, 0, BLADE_LEN - 35), "Borrower cut out");
    expect(holds(due, BLADE_LEN - 35), "what is left without Borrower");
    /* Sum alone is left: the fields that were read are gone with those that read them. */
    memcpy(due, blade_table, 22);
    memcpy(due + 22, blade_table + 192, BLADE_LEN - 192);
    due[6] = 1;
    memset(out, 9, sizeof out);
    expect(is(umarekoza_cut_fields(blade_table, BLADE_LEN, 0, 5, out, 300), 0, 0, 45), "all but Sum cut out");
    expect(holds(due, 45), "what is left but Sum");
}

static void put_refused(void)
{
    const uint8_t *a = a_record;
    memset(out, 9, sizeof out);
    expect(is(umarekoza_put_fields(NULL, 0, 0, NULL, 0, NULL, 0), 21, 0, 0), "putting nothing into nothing");
    expect(is(umarekoza_put_fields(NULL, 0, 0, a, 17, out, 300), 21, 0, 0), "putting into no table");
    expect(is(umarekoza_put_fields(shorter, sizeof shorter, 0, NULL, 0, out, 300), 30, 0, 0), "putting nothing in");
    expect(is(umarekoza_put_fields(shorter, sizeof shorter, 3, a, 17, out, 300), 30, 0, 0), "beyond the end");
    expect(is(umarekoza_put_fields(shorter, sizeof shorter, SIZE_MAX, a, 9, out, 300), 30, 0, 0), "far beyond the end");
    expect(is(umarekoza_put_fields(shorter, sizeof shorter, 0, a, 16, out, 300), 34, 0, 0), "a part of a record");
    expect(is(umarekoza_put_fields(chain_table, CHAIN_LEN, 0, a, 17, out, 300), 34, 0, 0), "A twice");
    expect(is(umarekoza_put_fields(shorter, sizeof shorter, 0, shorter, 15, out, 300), 34, 0, 0), "the head's record");
    expect(is(umarekoza_put_fields(shorter, sizeof shorter, 1, tail_record, 28, out, 300), 34, 0, 0), "reading itself");
    expect(is(umarekoza_put_fields(shorter, sizeof shorter, 0, a, 17, NULL, 0), 11, 0, 0), "putting to no output");
    expect(is(umarekoza_put_fields(shorter, sizeof shorter, 0, a, 17, out, CHAIN_LEN - 1), 11, 0, 0),
           "putting to a short output");
    expect(nines(out, 0, sizeof out), "an output after refused puttings-in");
}

static void put(void)
{
    uint8_t due[CHAIN_LEN + 28];
    struct umarekoza_answer longer;
    memset(out, 9, sizeof out);
    expect(is(umarekoza_put_fields(shorter, sizeof shorter, 0, a_record, 17, out, 300), 0, 0, CHAIN_LEN), "A put in");
    expect(holds(chain_table, CHAIN_LEN), "what there is with A");
    /* At the end of the chain Tail reads N, field 1, which is then read twice by others; Tail is read by none. */
    memcpy(due, chain_table, CHAIN_LEN - 4);
    memcpy(due + CHAIN_LEN - 4, tail_record, 28);
    memcpy(due + CHAIN_LEN + 24, chain_table + CHAIN_LEN - 4, 4);
    due[6] = 4;
    due[36] = 2;
    due[CHAIN_LEN] = 0;
    memset(out, 9, sizeof out);
    longer = umarekoza_put_fields(chain_table, CHAIN_LEN, 3, tail_record, 28, out, CHAIN_LEN + 28);
    expect(is(longer, 0, 0, CHAIN_LEN + 28), "Tail put in at the end, with just room enough");
    expect(holds(due, CHAIN_LEN + 28), "what there is with Tail");
    /* Cut out again, it leaves the bytes that were there. */
    memset(out, 9, sizeof out);
    expect(is(umarekoza_cut_fields(due, sizeof due, 3, 3, out, 300), 0, 0, CHAIN_LEN), "Tail cut out again");
    expect(holds(chain_table, CHAIN_LEN), "the chain as it was");
}

int main(void)
{
    uint8_t written[CHAIN_LEN];
    expect(is(umarekoza_write_table(BYTES(blade), blade_table, BLADE_LEN), 0, 0, BLADE_LEN), "the blade report");
    expect(is(umarekoza_write_table(BYTES(chain), written, CHAIN_LEN), 0, 0, CHAIN_LEN), "the chain's text");
    expect(memcmp(written, chain_table, CHAIN_LEN) == 0, "the chain's table");
    cut_refused();
    cut();
    put_refused();
    put();
    return failed;
}
