/* Reads a packet by a stored table and checks nothing: the table is taken to be good and the packet to be accepted. */
#include <stddef.h>
#include <stdint.h>

enum { FIXED = 12, MEASURED = 13, REST = 14 };

static uint32_t two(const uint8_t *at)
{
    return at[0] | (uint32_t)at[1] << 8;
}

/* The part behind a length. */
static const uint8_t *behind(const uint8_t *part)
{
    return part + 2 + two(part);
}

static uint32_t power(uint32_t base, uint32_t exponent)
{
    uint32_t product = 1;
    for (; exponent > 0; exponent /= 2, base *= base)
        if (exponent % 2 == 1)
            product *= base;
    return product;
}

/* The value of the expression at *at, which is moved behind it. Where && or || skips an operand, it may have a zero
   divisor or leave the range here; its value plays no part. */
static uint32_t value(const uint8_t **at, const uint32_t *run)
{
    uint8_t code = *(*at)++;
    if (code == 0x01) {
        const uint8_t *number = *at;
        *at += 4;
        return two(number) | two(number + 2) << 16;
    }
    if (code == 0x02)
        return run[4 * *(*at)++ + 3];
    uint32_t left = value(at, run);
    if (code == 0x32)
        return !left;
    uint32_t right = value(at, run);
    switch (code) {
    case 0x10: return left + right;
    case 0x11: return left - right;
    case 0x12: return left * right;
    case 0x13: return right == 0 ? 0 : left / right;
    case 0x14: return right == 0 ? 0 : left % right;
    case 0x15: return power(left, right);
    case 0x20: return left == right;
    case 0x21: return left != right;
    case 0x22: return left < right;
    case 0x23: return left <= right;
    case 0x24: return left > right;
    case 0x25: return left >= right;
    case 0x30: return left & right;
    default: return left | right;
    }
}

/* The value of the expression behind a length; otherwise if the length is 0. */
static uint32_t value_or(const uint8_t *part, const uint32_t *run, uint32_t otherwise)
{
    const uint8_t *at = part + 2;
    return two(part) == 0 ? otherwise : value(&at, run);
}

static uint32_t bits(const uint8_t *packet, uint32_t place, uint32_t width)
{
    uint32_t end = place + width;
    uint64_t whole = 0;
    for (uint32_t byte = place / 8; byte < (end + 7) / 8; byte++)
        whole = whole << 8 | packet[byte];
    return (uint32_t)(whole >> (-end & 7) & ((UINT64_C(1) << width) - 1));
}

/* The place of the width in a field's record. */
static const uint8_t *width_part(const uint8_t *record)
{
    return behind(behind(record + 6));
}

/* The fixed widths of some records. */
static uint32_t fixed_widths(const uint8_t *record, uint32_t count)
{
    uint32_t sum = 0;
    for (; count > 0; count--, record += two(record))
        sum += two(width_part(record));
    return sum;
}

/* Four numbers a field to run. Answers the bits; 0 if constraints are asked for and one is false. */
uint32_t plain_read(const uint8_t *table, const uint8_t *packet, size_t packet_len, uint32_t *run, int constraints)
{
    uint32_t total = 8 * (uint32_t)packet_len, place = 0, held = 1, count = two(table + 6);
    const uint8_t *record = table + two(table);
    for (uint32_t index = 0; index < count; index++, record += two(record)) {
        uint32_t kind = two(record + 2), width, *four = run + 4 * index;
        const uint8_t *part = width_part(record);
        const uint8_t *constraint = kind == REST ? part : kind == FIXED ? part + 2 : behind(part + 2);
        four[0] = value_or(behind(constraint), run, 1);
        four[1] = four[2] = four[3] = 0;
        if (four[0] == 0)
            continue;
        if (kind == FIXED)
            width = two(part);
        else if (kind == MEASURED)
            width = two(part) * value_or(part + 2, run, 0);
        else
            width = total - place - fixed_widths(record + two(record), count - index - 1);
        four[1] = place;
        four[2] = width;
        if (kind == FIXED)
            four[3] = bits(packet, place, width);
        if (constraints)
            held &= value_or(constraint, run, 1);
        place += width;
    }
    return held ? place : 0;
}
