/* Reads the blade report's page from standard input and prints the listing of M1 of document 01. */
#include <stdio.h>
#include <umarekoza.h>

int main(void)
{
    static const uint8_t m1[8] = {0x62, 0x07, 0x01, 0x2C, 0xAA, 0xBB, 0x00, 0x09};
    static uint8_t text[UMAREKOZA_TEXT_MOST + 1], table[UMAREKOZA_TABLE_MOST], listing[UMAREKOZA_LISTING_MOST];
    size_t length = fread(text, 1, sizeof text, stdin);
    struct umarekoza_answer written = umarekoza_write_table(text, length, table, sizeof table);
    struct umarekoza_answer listed = umarekoza_list_packet(table, written.length, m1, 8, listing, sizeof listing);
    fwrite(listing, 1, listed.length, stdout);
    return written.number != 0 || listed.number != 0;
}
