// A program that breaks when it is packed with common libraries: it copies structs with function pointers, and divides.
// `arm` chooses by a switch, whose table holds addresses of code where -mcmodel=medlow is given.

#include <stddef.h>

typedef unsigned int u32;

void *memcpy(void *to, const void *from, size_t count);

struct device {
    const char *name;
    double (*read)(void);
};

static volatile double degrees = 21.0;
static volatile double scale = 4.0;
static volatile u32 kinds = 8;

static double thermometer(void) { return degrees / scale; }
static double barometer(void) { return (float)degrees / (float)scale + 1000; }

static const struct device built_in[] = { { "thermometer", thermometer }, { "barometer", barometer } };
static struct device devices[2];

static void write_bytes(const char *bytes, u32 count)
{
    register u32 a0 asm("a0") = 1;
    register const char *a1 asm("a1") = bytes;
    register u32 a2 asm("a2") = count;
    register u32 a7 asm("a7") = 64;
    asm volatile("ecall" : "+r"(a0) : "r"(a1), "r"(a2), "r"(a7) : "memory");
}

static void print(const char *text)
{
    u32 count = 0;
    while (text[count])
        count++;
    write_bytes(text, count);
}

static void print_number(u32 number)
{
    char digits[10];
    u32 place = sizeof digits;
    do {
        digits[--place] = '0' + number % 10;
        number /= 10;
    } while (number);
    write_bytes(digits + place, sizeof digits - place);
}

__attribute__((noinline)) static u32 arm(u32 kind, u32 value)
{
    switch (kind) {
    case 0: return value + 3;
    case 1: return value << 4;
    case 2: return value ^ 1234;
    case 3: return value >> 3;
    case 4: return 99 - value;
    case 5: return value * 5;
    case 6: return value & 2;
    default: return 0;
    }
}

int main(void)
{
    volatile size_t size = sizeof built_in;
    memcpy(devices, built_in, size);
    for (u32 at = 0; at < 2; at++) {
        print(devices[at].name);
        print(": ");
        print_number((u32)(devices[at].read() * 100));
        print("\n");
    }
    u32 sum = 0;
    for (u32 kind = 0; kind < kinds; kind++)
        sum += arm(kind, (u32)degrees);
    print_number(sum);
    print("\n");
    return 0;
}
