/* The header as a C program sees it: the sizes, and each function with an accepted and a refused answer and with NULL
   and length 0 for each buffer. Texts, tables, packets and answers are those of document 01, numbers 29 and 30 those of
   02. Fields cut out and put in: edits.c; texts in pieces: pieces.c. */
#include "cases.h"

static const char tag[] =
    "A Tag is formatted as follows:\n"
    "\n"
    " 0\n"
    " 0 1 2 3 4 5 6 7\n"
    "+-+-+-+-+-+-+-+-+\n"
    "|       K       |\n"
    "+-+-+-+-+-+-+-+-+\n"
    "\n"
    "where:\n"
    "\n"
    "Kind (K): 1 byte; K == 7.\n";

/* The same with a row of two lines. */
static const char two_lines[] =
    "A Tag is formatted as follows:\n"
    "\n"
    " 0\n"
    " 0 1 2 3 4 5 6 7\n"
    "+-+-+-+-+-+-+-+-+\n"
    "|               |\n"
    "|       K       |\n"
    "+-+-+-+-+-+-+-+-+\n"
    "\n"
    "where:\n"
    "\n"
    "Kind (K): 1 byte; K == 7.\n";

static const uint8_t tag_table[46] = {
    0x0D, 0x00, 0x01, 0x00, 0x08, 0x00, 0x01, 0x00, 0x03, 0x00, 0x54, 0x61, 0x67, 0x1D, 0x00, 0x0C,
    0x00, 0x00, 0x00, 0x04, 0x00, 0x4B, 0x69, 0x6E, 0x64, 0x01, 0x00, 0x4B, 0x08, 0x00, 0x08, 0x00,
    0x20, 0x02, 0x00, 0x01, 0x07, 0x00, 0x00, 0x00, 0x00, 0x00, 0x04, 0x00, 0x05, 0x00};

/* The Tag table as it was before records kept a number. */
static const uint8_t old_tag_table[44] = {
    0x0D, 0x00, 0x01, 0x00, 0x08, 0x00, 0x01, 0x00, 0x03, 0x00, 0x54, 0x61, 0x67, 0x1B, 0x00,
    0x02, 0x00, 0x04, 0x00, 0x4B, 0x69, 0x6E, 0x64, 0x01, 0x00, 0x4B, 0x08, 0x00, 0x08, 0x00,
    0x20, 0x02, 0x00, 0x01, 0x07, 0x00, 0x00, 0x00, 0x00, 0x00, 0x04, 0x00, 0x05, 0x00};

/* The Tag with a constraint that divides by its field. */
static const char third[] =
    "A Tag is formatted as follows:\n"
    "\n"
    " 0\n"
    " 0 1 2 3 4 5 6 7\n"
    "+-+-+-+-+-+-+-+-+\n"
    "|       K       |\n"
    "+-+-+-+-+-+-+-+-+\n"
    "\n"
    "where:\n"
    "\n"
    "Kind (K): 1 byte; 7 / K == 2.\n";

/* A rest field alone. */
static const char rest[] =
    "A Note is formatted as follows:\n"
    "\n"
    " 0\n"
    " 0 1 2 3 4 5 6 7\n"
    "+-+-+-+-+-+-+-+-+\n"
    ":     Text      :\n"
    "+-+-+-+-+-+-+-+-+\n"
    "\n"
    "where:\n"
    "\n"
    "Text: variable.\n";

static const uint8_t m1[8] = {0x62, 0x07, 0x01, 0x2C, 0xAA, 0xBB, 0x00, 0x09};

static const char m1_listing[] =
    "Version: 0 2 1\n"
    "On Loan: 2 1 1\n"
    "Cells: 3 5 2\n"
    "Blade: 8 8 7\n"
    "Borrower: 16 16 300\n"
    "Readings: 32 16\n"
    "Sum: 48 16 9\n"
    "bits 64\n";

static const uint32_t m1_numbers[28] = {
    1, 0, 2, 1, 1, 2, 1, 1, 1, 3, 5, 2, 1, 8, 8, 7, 1, 16, 16, 300, 1, 32, 16, 0, 1, 48, 16, 9};

/* The blade report's table, written by the library. */
static uint8_t table[BLADE_LEN];
static const size_t table_len = BLADE_LEN;

static int reads(struct umarekoza_partial a, uint32_t number, uint32_t place, uint64_t length, uint64_t count)
{
    return a.number == number && a.place == place && a.length == length && a.count == count;
}

static int lies(struct umarekoza_span s, uint64_t offset, uint64_t length)
{
    return s.offset == offset && s.length == length;
}

/* Buffers that the header says are always enough. */
static void most(void)
{
    static uint8_t bytes[UMAREKOZA_TABLE_MOST];
    static uint8_t lines[UMAREKOZA_LISTING_MOST];
    static uint32_t numbers[UMAREKOZA_RUN_MOST];
    static const uint8_t packet[UMAREKOZA_PACKET_MOST + 1];
    static const char due[] = "Text: 0 65528\nbits 65528\n";
    const size_t run_len = UMAREKOZA_RUN_MOST;
    struct umarekoza_answer note;
    expect(UMAREKOZA_RUN_MOST == 4 * UMAREKOZA_FIELDS_MOST, "four numbers a field");
    expect(is(umarekoza_write_table(BYTES(tag), bytes, sizeof bytes), 0, 0, 46), "the Tag text to a long output");
    expect(is(umarekoza_read_packet(tag_table, 46, packet, UMAREKOZA_PACKET_MOST, numbers, run_len), 25, 1, 0),
           "a packet as long as may be");
    expect(is(umarekoza_read_packet(tag_table, 46, packet, sizeof packet, numbers, run_len), 22, 0, 0),
           "a packet too long");
    expect(is(umarekoza_list_packet(tag_table, 46, packet, sizeof packet, lines, sizeof lines), 0, 0, 16),
           "a packet too long listed");
    note = umarekoza_write_table(BYTES(rest), bytes, sizeof bytes);
    expect(is(umarekoza_list_packet(bytes, note.length, packet, 8191, lines, sizeof lines), 0, 0, sizeof due - 1),
           "a packet of 8,191 bytes listed");
    expect(memcmp(lines, due, sizeof due - 1) == 0, "the listing of a packet of 8,191 bytes");
    expect(is(umarekoza_read_packet(bytes, note.length, packet, 8192, numbers, run_len), 22, 0, 0),
           "a packet of 8,192 bytes");
}

static void write_table(void)
{
    uint8_t out[64];
    memset(out, 9, sizeof out);
    expect(is(umarekoza_write_table(NULL, 0, NULL, 0), 3, 1, 0), "no text and no output");
    expect(is(umarekoza_write_table(NULL, 0, out, 64), 3, 1, 0), "no text");
    expect(is(umarekoza_write_table(BYTES(tag), NULL, 0), 11, 0, 0), "no output");
    expect(is(umarekoza_write_table(BYTES(tag), out, 45), 11, 0, 0), "an output too short");
    expect(nines(out, 0, 64), "an output after refusals");
    expect(is(umarekoza_write_table(BYTES(tag), out, 64), 0, 0, 46), "the Tag text");
    expect(memcmp(out, tag_table, 46) == 0, "the Tag table");
    expect(nines(out, 46, 64), "what lies beyond the table");
    memset(out, 9, sizeof out);
    expect(is(umarekoza_write_table(BYTES(two_lines), out, 64), 0, 0, 46), "the text of a row of two lines");
    expect(memcmp(out, tag_table, 46) == 0, "the table of a row of two lines");
    expect(is(umarekoza_write_table(BYTES(blade), table, table_len), 0, 0, table_len), "the blade report's text");
}

static void check_table(void)
{
    expect(is(umarekoza_check_table(NULL, 0), 21, 0, 0), "no table to check");
    expect(is(umarekoza_check_table(tag_table, 45), 21, 0, 0), "a part of the Tag table");
    expect(is(umarekoza_check_table(tag_table, 46), 0, 0, 46), "the Tag table checked");
    expect(is(umarekoza_check_table(old_tag_table, 44), 21, 0, 0), "the old Tag table checked");
    expect(is(umarekoza_check_table(table, table_len), 0, 0, table_len), "the blade report's table checked");
}

static void read_packet(void)
{
    uint32_t run[30];
    memset(run, 9, sizeof run);
    expect(is(umarekoza_read_packet(NULL, 0, NULL, 0, NULL, 0), 21, 0, 0), "reading nothing");
    expect(is(umarekoza_read_packet(NULL, 0, m1, 8, run, 30), 21, 0, 0), "reading by no table");
    expect(is(umarekoza_read_packet(table, table_len, m1, 8, NULL, 0), 23, 0, 0), "reading to no run");
    expect(is(umarekoza_read_packet(table, table_len, NULL, 0, run, 30), 24, 1, 0), "M7 read");
    expect(is(umarekoza_read_packet(table, table_len, m1, 7, run, 30), 24, 7, 0), "M3 read");
    expect(nines(run, 0, sizeof run), "a run after refusals");
    expect(is(umarekoza_read_packet(table, table_len, m1, 8, run, 30), 0, 0, 64), "M1 read");
    expect(memcmp(run, m1_numbers, sizeof m1_numbers) == 0, "M1's numbers");
    expect(nines(run, sizeof m1_numbers, sizeof run), "what lies beyond M1's numbers");
}

static void field_bytes(void)
{
    expect(lies(umarekoza_field_bytes(NULL, 0, NULL, 0, 0), 0, 0), "bytes of nothing");
    expect(lies(umarekoza_field_bytes(NULL, 0, m1, 8, 5), 0, 0), "bytes by no table");
    expect(lies(umarekoza_field_bytes(table, table_len, NULL, 0, 5), 0, 0), "bytes of M7");
    expect(lies(umarekoza_field_bytes(table, table_len, m1, 7, 5), 0, 0), "bytes of M3");
    expect(lies(umarekoza_field_bytes(table, table_len, m1, 8, 2), 0, 0), "bytes of M1's Cells");
    expect(lies(umarekoza_field_bytes(table, table_len, m1, 8, 7), 0, 0), "bytes of no field");
    expect(lies(umarekoza_field_bytes(table, table_len, m1, 8, 5), 4, 2), "bytes of M1's Readings");
}

static void list_packet(void)
{
    const size_t m1_len = sizeof m1_listing - 1;
    uint8_t out[200];
    memset(out, 9, sizeof out);
    expect(is(umarekoza_list_packet(NULL, 0, NULL, 0, NULL, 0), 11, 0, 0), "a listing of nothing");
    expect(is(umarekoza_list_packet(table, table_len, m1, 8, NULL, 0), 11, 0, 0), "a listing to no output");
    expect(is(umarekoza_list_packet(table, table_len, m1, 8, out, m1_len - 1), 11, 0, 0), "a listing too long");
    expect(nines(out, 0, 200), "an output after refused listings");
    expect(is(umarekoza_list_packet(table, table_len, m1, 8, out, 200), 0, 0, m1_len), "M1 listed");
    expect(memcmp(out, m1_listing, m1_len) == 0 && nines(out, m1_len, 200), "M1's listing");
    expect(is(umarekoza_list_packet(table, table_len, m1, 7, out, 200), 0, 0, 16), "M3 listed");
    expect(memcmp(out, "refused 24 at 7\n", 16) == 0, "M3's listing");
    expect(is(umarekoza_list_packet(table, table_len, NULL, 0, out, 200), 0, 0, 16), "M7 listed");
    expect(memcmp(out, "refused 24 at 1\n", 16) == 0, "M7's listing");
    expect(is(umarekoza_list_packet(NULL, 0, m1, 8, out, 200), 0, 0, 16), "M1 listed by no table");
    expect(memcmp(out, "refused 21 at 0\n", 16) == 0, "a listing by no table");
}

static void find_field(void)
{
    expect(is(umarekoza_find_field(NULL, 0, NULL, 0), 21, 0, 0), "no name in no table");
    expect(is(umarekoza_find_field(NULL, 0, BYTES("Bor")), 21, 0, 0), "a name in no table");
    expect(is(umarekoza_find_field(table, table_len, NULL, 0), 30, 0, 0), "no name");
    expect(is(umarekoza_find_field(table, table_len, BYTES("bor")), 30, 0, 0), "an unknown name");
    expect(is(umarekoza_find_field(table, table_len, BYTES("Bor")), 0, 0, 4), "a short name");
    expect(is(umarekoza_find_field(table, table_len, BYTES("Sum")), 0, 0, 6), "a label");
    expect(is(umarekoza_find_field(table, table_len, BYTES("Borrower")), 0, 0, 4), "a label beside a short name");
}

static void field_label(void)
{
    expect(lies(umarekoza_field_label(NULL, 0, 0), 0, 0), "a label in no table");
    expect(lies(umarekoza_field_label(tag_table, 45, 0), 0, 0), "a label in a part of the Tag table");
    expect(lies(umarekoza_field_label(tag_table, 46, 1), 0, 0), "the label of no field");
    expect(lies(umarekoza_field_label(tag_table, 46, 0), 21, 4), "the label Kind");
}

static void field_short(void)
{
    expect(lies(umarekoza_field_short(NULL, 0, 0), 0, 0), "a short name in no table");
    expect(lies(umarekoza_field_short(tag_table, 45, 0), 0, 0), "a short name in a part of the Tag table");
    expect(lies(umarekoza_field_short(tag_table, 46, 1), 0, 0), "the short name of no field");
    expect(lies(umarekoza_field_short(tag_table, 46, 0), 27, 1), "the short name K");
    expect(lies(umarekoza_field_short(table, table_len, 3), 0, 0), "Blade has no short name");
    expect(lies(umarekoza_field_short(table, table_len, 4), 147, 3), "the short name Bor");
}

static void count_fields(void)
{
    expect(is(umarekoza_count_fields(NULL, 0), 21, 0, 0), "the fields of no table");
    expect(is(umarekoza_count_fields(tag_table, 45), 21, 0, 0), "the fields of a part of the Tag table");
    expect(is(umarekoza_count_fields(tag_table, 46), 0, 0, 1), "the Tag table's field");
    expect(is(umarekoza_count_fields(table, table_len), 0, 0, 7), "the blade report's fields");
}

static void field_kind(void)
{
    uint8_t out[64];
    struct umarekoza_answer note = umarekoza_write_table(BYTES(rest), out, sizeof out);
    expect(is(umarekoza_field_kind(NULL, 0, 0), 21, 0, 0), "a kind in no table");
    expect(is(umarekoza_field_kind(table, table_len, 7), 30, 0, 0), "the kind of no field");
    expect(is(umarekoza_field_kind(table, table_len, 0), 0, 0, 12), "the kind of Version");
    expect(is(umarekoza_field_kind(table, table_len, 5), 0, 0, 13), "the kind of Readings");
    expect(note.number == 0 && is(umarekoza_field_kind(out, note.length, 0), 0, 0, 14), "the kind of Text");
}

static void count_readers(void)
{
    static const uint64_t due[7] = {0, 1, 1, 0, 0, 0, 0};
    size_t index;
    expect(is(umarekoza_count_readers(NULL, 0, 0), 21, 0, 0), "the readers in no table");
    expect(is(umarekoza_count_readers(old_tag_table, 44, 0), 21, 0, 0), "the readers in the old Tag table");
    expect(is(umarekoza_count_readers(tag_table, 45, 9), 21, 0, 0), "the readers in a part of the Tag table");
    expect(is(umarekoza_count_readers(tag_table, 46, 0), 0, 0, 0), "Kind is read by its own constraint alone");
    expect(is(umarekoza_count_readers(tag_table, 46, 1), 30, 0, 0), "the readers of no field");
    expect(is(umarekoza_count_readers(table, table_len, SIZE_MAX), 30, 0, 0), "the readers of the last index");
    for (index = 0; index < 7; index++)
        expect(is(umarekoza_count_readers(table, table_len, index), 0, 0, due[index]), "the blade report's readers");
}

static void convert_table(void)
{
    uint8_t out[64];
    memset(out, 9, sizeof out);
    expect(is(umarekoza_convert_table(NULL, 0, NULL, 0), 21, 0, 0), "converting nothing");
    expect(is(umarekoza_convert_table(NULL, 0, out, 64), 21, 0, 0), "converting no table");
    expect(is(umarekoza_convert_table(old_tag_table, 43, out, 64), 21, 0, 0), "converting a part of a table");
    expect(is(umarekoza_convert_table(tag_table, 46, out, 64), 21, 0, 0), "converting a new table");
    expect(is(umarekoza_convert_table(old_tag_table, 44, NULL, 0), 11, 0, 0), "converting to no output");
    expect(is(umarekoza_convert_table(old_tag_table, 44, out, 45), 11, 0, 0), "converting to a short output");
    expect(nines(out, 0, 64), "an output after refused conversions");
    expect(is(umarekoza_convert_table(old_tag_table, 44, out, 64), 0, 0, 46), "the old Tag table converted");
    expect(memcmp(out, tag_table, 46) == 0, "what the old Tag table becomes");
    expect(nines(out, 46, 64), "what lies beyond a converted table");
}

static void read_partly(void)
{
    static const uint8_t m4[9] = {0x62, 0x07, 0x01, 0x2C, 0xAA, 0xBB, 0x00, 0x09, 0x00};
    static const uint8_t m6[2] = {0x55, 0x07};
    static const uint32_t m6_numbers[8] = {1, 0, 2, 1, 1, 2, 1, 0};
    static const uint8_t packet[UMAREKOZA_PACKET_MOST + 1];
    uint32_t run[30];
    memset(run, 9, sizeof run);
    expect(reads(umarekoza_read_partly(NULL, 0, NULL, 0, NULL, 0), 21, 0, 0, 0), "reading nothing, partly");
    expect(reads(umarekoza_read_partly(NULL, 0, m1, 8, run, 30), 21, 0, 0, 0), "by no table, partly");
    expect(reads(umarekoza_read_partly(table, table_len, m1, 8, NULL, 0), 23, 0, 0, 0), "to no run, partly");
    expect(reads(umarekoza_read_partly(table, table_len, m1, 7, run, 27), 23, 0, 0, 0), "to a short run, partly");
    expect(reads(umarekoza_read_partly(table, table_len, packet, sizeof packet, run, 30), 22, 0, 0, 0),
           "a packet too long, partly");
    expect(reads(umarekoza_read_partly(table, table_len, NULL, 0, run, 30), 24, 1, 0, 0), "M7 partly");
    expect(nines(run, 0, sizeof run), "a run of no fields");
    expect(reads(umarekoza_read_partly(table, table_len, m6, 2, run, 30), 25, 3, 0, 2), "M6 partly");
    expect(memcmp(run, m6_numbers, sizeof m6_numbers) == 0, "M6's numbers before Cells");
    expect(nines(run, sizeof m6_numbers, sizeof run), "what lies beyond M6's numbers");
    expect(reads(umarekoza_read_partly(table, table_len, m1, 7, run, 30), 24, 7, 0, 6), "M3 partly");
    expect(memcmp(run, m1_numbers, 24 * 4) == 0, "M3's numbers before Sum");
    expect(nines(run, 24 * 4, sizeof run), "what lies beyond M3's numbers");
    expect(reads(umarekoza_read_partly(table, table_len, m4, 9, run, 30), 28, 0, 0, 7), "M4 partly");
    expect(memcmp(run, m1_numbers, sizeof m1_numbers) == 0, "M4's numbers");
    memset(run, 9, sizeof run);
    expect(reads(umarekoza_read_partly(table, table_len, m1, 8, run, 30), 0, 0, 64, 7), "M1 partly");
    expect(memcmp(run, m1_numbers, sizeof m1_numbers) == 0, "M1's numbers, partly");
    expect(nines(run, sizeof m1_numbers, sizeof run), "what lies beyond M1's numbers, partly");
}

static void zero_divisor(void)
{
    static const uint8_t three[1] = {3};
    static const uint8_t zero[1] = {0};
    uint8_t out[64], listed[16];
    uint32_t run[4] = {9, 9, 9, 9};
    struct umarekoza_answer tag = umarekoza_write_table(BYTES(third), out, sizeof out);
    expect(is(tag, 0, 0, 52), "the text of a quotient");
    expect(is(umarekoza_read_packet(out, tag.length, zero, 1, run, 4), 29, 1, 0), "a zero divisor");
    expect(reads(umarekoza_read_partly(out, tag.length, zero, 1, run, 4), 29, 1, 0, 0), "a zero divisor, partly");
    expect(run[0] == 9 && run[3] == 9, "the run of a zero divisor");
    expect(lies(umarekoza_field_bytes(out, tag.length, zero, 1, 0), 0, 0), "the bytes of a zero divisor");
    expect(is(umarekoza_read_packet(out, tag.length, three, 1, run, 4), 0, 0, 8), "a quotient rounded down");
    expect(run[0] == 1 && run[3] == 3, "the numbers of a quotient rounded down");
    expect(is(umarekoza_list_packet(out, tag.length, zero, 1, listed, 16), 0, 0, 16)
               && memcmp(listed, "refused 29 at 1\n", 16) == 0,
           "the listing of a zero divisor");
}

int main(void)
{
    expect(sizeof(struct umarekoza_answer) == 16, "size of an answer");
    expect(sizeof(struct umarekoza_partial) == 24, "size of an answer with a count");
    expect(sizeof(struct umarekoza_span) == 16, "size of a span");
    most();
    write_table();
    check_table();
    read_packet();
    field_bytes();
    list_packet();
    find_field();
    field_label();
    field_short();
    count_fields();
    field_kind();
    count_readers();
    convert_table();
    read_partly();
    zero_divisor();
    return failed;
}
