/* What the tests of the header share. */
#include <stdio.h>
#include <string.h>

#include "umarekoza.h"

#define BYTES(string) (const uint8_t *)(string), sizeof(string) - 1

/* The blade report of document 01. The records of its table have 22, 32, 24, 30, 21, 35, 28, 19 and 4 bytes. */
#define BLADE_LEN 215
static const char blade[] =
    "A Blade Report is formatted as follows:\n"
    "\n"
    " 0                   1\n"
    " 0 1 2 3 4 5 6 7 8 9 0 1 2 3 4 5\n"
    "+-+-+-+-+-+-+-+-+-+-+-+-+-+-+-+-+\n"
    "| V |L|  Cells  |     Blade     |\n"
    "+-+-+-+-+-+-+-+-+-+-+-+-+-+-+-+-+\n"
    "|           Borrower            |\n"
    "+-+-+-+-+-+-+-+-+-+-+-+-+-+-+-+-+\n"
    ":            Readings           :\n"
    "+-+-+-+-+-+-+-+-+-+-+-+-+-+-+-+-+\n"
    "|             Sum               |\n"
    "+-+-+-+-+-+-+-+-+-+-+-+-+-+-+-+-+\n"
    "\n"
    "where:\n"
    "\n"
    "Version (V): 2 bits; V == 1.\n"
    "On Loan (L): 1 bit.\n"
    "Cells (N): 5 bits; N <= 20.\n"
    "Blade: 1 byte.\n"
    "Borrower (Bor): 2 bytes; present only when L == 1.\n"
    "Readings: N bytes.\n"
    "Sum: 2 bytes.\n";

static int failed;

static inline void expect(int holds, const char *what)
{
    if (!holds) {
        printf("failed: %s\n", what);
        failed = 1;
    }
}

static inline int is(struct umarekoza_answer a, uint32_t number, uint32_t place, uint64_t length)
{
    return a.number == number && a.place == place && a.length == length;
}

/* Whether all bytes from here to there are 9. */
static inline int nines(const void *buffer, size_t from, size_t to)
{
    const uint8_t *bytes = (const uint8_t *)buffer;
    for (; from < to; from++)
        if (bytes[from] != 9)
            return 0;
    return 1;
}
