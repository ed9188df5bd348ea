// The division of double and of float for processors without floating point (IEEE 754, binary64 and binary32, to the
// nearest, ties to even), without a switch. A libgcc that was built with -mcmodel=medany has a table of label differences
// in its own: Squeeze takes the arms of that switch for unreached. Link this file ahead of libgcc, built with
// -mcmodel=medlow.

#include <stdint.h>

// A format by its widths: bits of the fraction, and of the exponent.
struct format {
    int fraction;
    int exponent;
};

// A number that isn't zero, as mantissa * 2^exponent, with the leading one at bit `fraction`.
struct parts {
    uint64_t mantissa;
    int exponent;
};

static struct parts parts_of(uint64_t magnitude, struct format format)
{
    struct parts parts;
    uint64_t one = (uint64_t)1 << format.fraction;
    parts.mantissa = magnitude & (one - 1);
    parts.exponent = (int)(magnitude >> format.fraction);
    if (parts.exponent)
        parts.mantissa |= one;
    else
        for (parts.exponent = 1; parts.mantissa < one; parts.exponent--)
            parts.mantissa <<= 1;
    return parts;
}

// The quotient of two numbers that aren't zero and are finite, as the bits of the format without a sign.
static uint64_t quotient_of(uint64_t dividend, uint64_t divisor, struct format format)
{
    struct parts a = parts_of(dividend, format);
    struct parts b = parts_of(divisor, format);
    uint64_t infinity = (((uint64_t)1 << format.exponent) - 1) << format.fraction;
    int bias = (1 << (format.exponent - 1)) - 1;
    int exponent = a.exponent - b.exponent + bias;
    uint64_t rest = a.mantissa;
    if (rest < b.mantissa) {
        rest <<= 1;
        exponent--;
    }
    // Two bits more than the mantissa has: the one that is rounded, and one that tells whether anything is left.
    uint64_t quotient = 0;
    for (int bit = 0; bit < format.fraction + 2; bit++) {
        quotient <<= 1;
        if (rest >= b.mantissa) {
            rest -= b.mantissa;
            quotient |= 1;
        }
        rest <<= 1;
    }
    quotient = quotient << 1 | (rest != 0);
    if (exponent >= (1 << format.exponent) - 1)
        return infinity;
    for (; exponent < 1 && quotient > 1; exponent++)
        quotient = quotient >> 1 | (quotient & 1);
    if (exponent < 1)
        exponent = 1;
    uint64_t rounded = quotient >> 2;
    if ((quotient & 3) == 3 || (quotient & 6) == 6)
        rounded++;
    // A carry goes on into the exponent; a mantissa without its leading one is a small number, whose exponent is 0.
    return ((uint64_t)(exponent - 1) << format.fraction) + rounded;
}

static uint64_t divide(uint64_t a, uint64_t b, struct format format)
{
    uint64_t sign = (uint64_t)1 << (format.fraction + format.exponent);
    uint64_t infinity = (((uint64_t)1 << format.exponent) - 1) << format.fraction;
    uint64_t quiet = (uint64_t)1 << (format.fraction - 1);
    uint64_t negative = (a ^ b) & sign;
    a &= sign - 1;
    b &= sign - 1;
    if (a > infinity || b > infinity || (a == b && (a == 0 || a == infinity)))
        return infinity | quiet;
    if (a == infinity || b == 0)
        return negative | infinity;
    if (a == 0 || b == infinity)
        return negative;
    return negative | quotient_of(a, b, format);
}

double __divdf3(double a, double b)
{
    union { double number; uint64_t bits; } x = { a }, y = { b };
    x.bits = divide(x.bits, y.bits, (struct format){ 52, 11 });
    return x.number;
}

float __divsf3(float a, float b)
{
    union { float number; uint32_t bits; } x = { a }, y = { b };
    x.bits = (uint32_t)divide(x.bits, y.bits, (struct format){ 23, 8 });
    return x.number;
}
