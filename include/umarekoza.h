/* Umarekoza: packet diagrams as tables, and packets read by them.

   Link libumarekoza.a (x86-64 Linux). Numbers, places and bytes are those of document 01 with the rows, limits, names,
   operators and field records that document 02 gives; 29, for a zero divisor, 30, for a name, an index or a run that
   no field has and for records of no bytes, 31, for a field that is still read, and 34, for fields that do not go
   together, are 02's.

   Each function has a proved promise, which holds for all bytes and lengths: it settles the answer, and what every
   lent buffer holds afterwards. A buffer that is not written is left as it was, and so is any byte beyond what is
   written. What writes begins at the start of its buffer. Nothing is kept between calls, but for a state that the
   caller lends, and no memory is allocated.

   No promise covers the caller's side:
   - each pointer is valid for its length (in bytes; for a run in numbers), and a run is aligned as uint32_t is;
   - no buffer that is written overlaps another buffer of the same call;
   - while the call runs, nothing else writes any of its buffers, those that it only reads too, or reads one that it
     writes;
   - NULL with length 0 is taken as an empty buffer: nothing is read or written through it;
   - there is stack enough: a call may need up to some 100 kilobytes. */
#ifndef UMAREKOZA_H
#define UMAREKOZA_H

#include <stddef.h>
#include <stdint.h>

#ifdef __cplusplus
extern "C" {
#endif

#define UMAREKOZA_VERSION "0.1.0"

/* The limits of documents 01 and 02 that a caller meets: bytes of a text, bytes of a line without its LF, fields, bytes
   of a packet. */
#define UMAREKOZA_TEXT_MOST 16384
#define UMAREKOZA_LINE_MOST 1024
#define UMAREKOZA_FIELDS_MOST 128
#define UMAREKOZA_PACKET_MOST 8191

/* A run of so many numbers, and an output of so many bytes for a table or for a listing, is always enough. */
#define UMAREKOZA_RUN_MOST 512
#define UMAREKOZA_TABLE_MOST 54582
#define UMAREKOZA_LISTING_MOST 7947

/* What is kept of a text between its pieces takes a state of so many bytes. */
#define UMAREKOZA_STATE_BYTES 70411

/* Number 0: accepted, with place 0 and a length. Else refused: the number and place of the refusal, and length 0. */
struct umarekoza_answer {
    uint32_t number;
    uint32_t place;
    uint64_t length;
};

/* An answer, and the number of fields that were read before a refusal. */
struct umarekoza_partial {
    uint32_t number;
    uint32_t place;
    uint64_t length;
    uint64_t count;
};

/* A part of a lent buffer: where it starts, and its length, in bytes. */
struct umarekoza_span {
    uint64_t offset;
    uint64_t length;
};

/* Reads a description text and writes its table at the start of out. Accepted: the table's length.
   Refused: 1 to 10 for the text, at the line from 1 or at 0; 11 at 0 if the table does not fit. Then out is
   unchanged. */
struct umarekoza_answer umarekoza_write_table(const uint8_t *text, size_t text_len, uint8_t *out, size_t out_len);

/* Checks a table. Accepted: the table's length. Refused: 21 at 0, an old table too, whose records keep no number of
   readers: umarekoza_convert_table makes a new one of it. */
struct umarekoza_answer umarekoza_check_table(const uint8_t *table, size_t table_len);

/* Reads a packet by a table, and writes four numbers a field at the start of run: 1 if it is present, its offset and
   its width in bits, its value (0 if it is long); an absent field has four zeros. Accepted: the packet's bits.
   Refused: 21 at 0 (the table), 22 at 0 (too long), 23 at 0 (run_len is under four numbers a field), 24 to 27 and 29
   at the field from 1, 28 at 0 (bits left over). Then run is unchanged. */
struct umarekoza_answer umarekoza_read_packet(const uint8_t *table, size_t table_len, const uint8_t *packet,
                                              size_t packet_len, uint32_t *run, size_t run_len);

/* Where in the packet the bytes of a field lie, by its index from 0. 0, 0 if the table is not good, the packet is
   refused, there is no such field, it is absent, or it is not whole bytes from a byte on. */
struct umarekoza_span umarekoza_field_bytes(const uint8_t *table, size_t table_len, const uint8_t *packet,
                                            size_t packet_len, size_t index);

/* Writes a packet's listing at the start of out; that of a refused packet, or of a table that is not good, is the line
   `refused N at P`. Accepted: the listing's length. Refused: 11 at 0 if it does not fit. Then out is unchanged. */
struct umarekoza_answer umarekoza_list_packet(const uint8_t *table, size_t table_len, const uint8_t *packet,
                                              size_t packet_len, uint8_t *out, size_t out_len);

/* The field that has the name as its label or short name; no two fields of a good table share a name.
   Accepted: its index from 0, as the length. Refused: 21 at 0 (the table), 30 at 0 (no such field). */
struct umarekoza_answer umarekoza_find_field(const uint8_t *table, size_t table_len, const uint8_t *name,
                                             size_t name_len);

/* Where in the table the label of a field stands, by its index from 0. 0, 0 if the table is not good or there is no
   such field. */
struct umarekoza_span umarekoza_field_label(const uint8_t *table, size_t table_len, size_t index);

/* Where in the table the short name of a field stands, by its index from 0. 0, 0 if the table is not good, there is no
   such field, or it has no short name. */
struct umarekoza_span umarekoza_field_short(const uint8_t *table, size_t table_len, size_t index);

/* The number of a table's fields. Accepted: their number, as the length. Refused: 21 at 0. */
struct umarekoza_answer umarekoza_count_fields(const uint8_t *table, size_t table_len);

/* The kind of a field, by its index from 0. Accepted, as the length: 12 (fixed), 13 (measured) or 14 (rest); those of
   13 and 14 are long. Refused: 21 at 0 (the table), 30 at 0 (no such field). */
struct umarekoza_answer umarekoza_field_kind(const uint8_t *table, size_t table_len, size_t index);

/* How many places read a field, by its index from 0: the references to it in the expressions of other fields, every
   one counted. Accepted: their number, as the length. Refused: 21 at 0 (the table), 30 at 0 (no such field). */
struct umarekoza_answer umarekoza_count_readers(const uint8_t *table, size_t table_len, size_t index);

/* Writes the new table of an old one at the start of out: every byte of its records is kept but for lengths and kinds,
   and each field's record gets its number of readers. Accepted: the new table's length. Refused: 21 at 0 if the table
   is not good by the rules for old ones (1 to 64 fields, no `/`, `%` and `^`, records of kinds 2 to 4 without a number,
   names as in force), 11 at 0 if the new table does not fit. Then out is unchanged. */
struct umarekoza_answer umarekoza_convert_table(const uint8_t *table, size_t table_len, uint8_t *out, size_t out_len);

/* Writes the table of a good one without a run of its fields at the start of out, from the index first to the index
   last, both from 0 and both of the run: the fields behind it get lower indexes, and each reference to one of these
   becomes that to its new index. Accepted: the new table's length. Refused: 21 at 0 (the table), 30 at 0 if first is
   over last or last is no field's index, 31 at the first field outside the run that reads one in it, counted from 1 by
   the numbering of the table as it is, 34 at 0 if the fields that are left make no good table for another reason (none
   is left, or their widths do not fit the rows), 11 at 0 if the new table does not fit. Then out is unchanged. */
struct umarekoza_answer umarekoza_cut_fields(const uint8_t *table, size_t table_len, size_t first, size_t last,
                                             uint8_t *out, size_t out_len);

/* Writes the table of a good one with further fields at the start of out: those of the records, which are whole ones of
   kinds 12, 13 and 14, one behind the other and nothing else, before the field of the index, from 0, or behind the last
   one where the index is the number of fields. The fields from the index on get higher ones, and each reference to one
   of these becomes that to its new index. References in the records are by the numbering of the new table; the numbers
   of readers in them may be any, and the new table has the right ones. Accepted: the new table's length. Refused: 21 at
   0 (the table), 30 at 0 if records_len is 0 or the index is over the number of fields, 34 at 0 if the records are not
   such ones or the fields make no good table together, 11 at 0 if the new table does not fit. Then out is unchanged.
   Cutting out what was put in gives the bytes of the old table again, if there is room. */
struct umarekoza_answer umarekoza_put_fields(const uint8_t *table, size_t table_len, size_t index,
                                             const uint8_t *records, size_t records_len, uint8_t *out, size_t out_len);

/* Reads a packet by a table as umarekoza_read_packet does, with the same answers, as far as it goes: the run gets the
   numbers of the fields before the first refused one, all of them where bits are left over (28) or the packet is
   accepted, and count is the number of these fields. 21, 22 and 23: count 0, and run is unchanged. */
struct umarekoza_partial umarekoza_read_partly(const uint8_t *table, size_t table_len, const uint8_t *packet,
                                               size_t packet_len, uint32_t *run, size_t run_len);

/* A text in pieces: umarekoza_text_start once, umarekoza_text_piece for each piece, umarekoza_text_end. Pieces are cut
   anywhere, within a line too, and may have no bytes. A state has UMAREKOZA_STATE_BYTES bytes, or more, of which the
   first so many are used; a shorter one stays as it is, and its end is refused by 11 at 0.

   What is kept, so that a caller can store a state between two pieces, send it and go on elsewhere. It has the same
   bytes on every machine: no pointer, and numbers of one byte, or of two with the lesser first, whatever the order that
   a machine has for its own.

   byte   what
   0-1    bytes of the text so far; 16385 if there are more than a text may have
   2-3    bytes of the unfinished line
   4-5    whole lines
   6      the stage, which line is to come: 0 the first, 1 the empty line behind it, 2 and 3 the rulers, 4 the border
          below them, 5 the first row's first line, 6 a further line of the open row or its border, 7 a row's first line
          or the empty line behind the rows, 8 `where:`, 9 the empty line behind it, 10 the first field line, 11 a
          further one, 12 none: a 2 or a 3 was found
   7      W
   8      length of NAME
   9      lines of the open row
   10     cells
   11     field lines
   12     fields that are kept
   13     whether the rest field is one of them
   14-15  where the cells end, from their start
   16-17  where the cell of the next field stands, from there too
   18-19  where NAME and the records end, from their start
   20     number of the lowest refusal so far, but for 1, which bytes 0-1 tell; 0: none
   21     0
   22-23  its place
   from 24 (1024)      the unfinished line
   from 1048 (260)     the lines of the open row, 4 of 65
   from 1308 (256)     how often each field is read, 128 numbers of two bytes
   from 1564 (5959)    the cells, one behind the other: 1 in a row of colons, else 0; bits; length of the text; the text
   from 7523 (3200)    the names of the fields: 1024 bytes by which they are found, 128 short names of 8 bytes, 128
                       labels of 8 that may be read as names, 128 marks, 1 for a fixed field
   from 10723 (5120)   their labels, 128 of 40 bytes
   from 15843 (54568)  NAME and the records, those of the table but for their numbers of readers, which are 0

   A name or label has zeros behind it; one that is not there is zeros. Behind the unfinished line, and behind the lines
   of the open row, their parts have zeros. Of the other parts, bytes beyond what their numbers count mean nothing.

   A state that no such pieces left may get any answer, but a refusal still changes no byte of out, and nothing is ever
   written but the state and, where a text is accepted, its table. */

/* Leaves in the state what is kept of the text of no bytes: the same bytes, whatever it held. */
void umarekoza_text_start(uint8_t *state, size_t state_len);

/* Takes the next bytes of the text; none leave any state as it is. */
void umarekoza_text_piece(uint8_t *state, size_t state_len, const uint8_t *piece, size_t piece_len);

/* Ends the text: from a fresh start, with each state handed on as it came, the answer and what is written to out are
   those of umarekoza_write_table for the joined text. The state is not changed, so that more pieces may follow. */
struct umarekoza_answer umarekoza_text_end(const uint8_t *state, size_t state_len, uint8_t *out, size_t out_len);

#ifdef __cplusplus
}
#endif

#endif
