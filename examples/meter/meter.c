// The firmware of a small energy meter: reads samples, keeps totals by channel, and answers commands from a table of
// function pointers. It prints through the write call, as on any board with a console behind ecall.

typedef unsigned int u32;

enum { CHANNELS = 4, SAMPLES = 16 };

struct channel {
    const char *name;
    u32 scale;
    u32 total;
    u32 peak;
};

// Initial values: these are copied from flash at the start.
static struct channel channels[CHANNELS] = {
    { "kitchen", 3, 0, 0 },
    { "garage", 5, 0, 0 },
    { "solar", 2, 0, 0 },
    { "heating", 7, 0, 0 },
};

static u32 log_of_samples[SAMPLES];
static u32 seed = 12345;

static void write_bytes(const char *bytes, u32 count)
{
    register u32 a0 asm("a0") = 1;
    register const char *a1 asm("a1") = bytes;
    register u32 a2 asm("a2") = count;
    register u32 a7 asm("a7") = 64;
    asm volatile("ecall" : "+r"(a0) : "r"(a1), "r"(a2), "r"(a7) : "memory");
}

static void print(const char *text)
{
    u32 count = 0;
    while (text[count])
        count++;
    write_bytes(text, count);
}

static void print_number(u32 number)
{
    char digits[10];
    u32 place = sizeof digits;
    do {
        digits[--place] = '0' + number % 10;
        number /= 10;
    } while (number);
    write_bytes(digits + place, sizeof digits - place);
}

static void print_entry(const char *name, u32 number, const char *unit)
{
    print(name);
    print(": ");
    print_number(number);
    print(unit);
}

// A linear congruential generator stands for the sensor.
static u32 next_sample(void)
{
    seed = seed * 1664525 + 1013904223;
    return seed >> 26;
}

static void measure(struct channel *channel)
{
    for (u32 i = 0; i < SAMPLES; i++) {
        u32 sample = next_sample() * channel->scale;
        log_of_samples[i] = sample;
        channel->total += sample;
        if (sample > channel->peak)
            channel->peak = sample;
    }
}

static void command_measure(u32 which)
{
    measure(&channels[which]);
    print_entry(channels[which].name, channels[which].total, " Wh\n");
}

static void command_peak(u32 which)
{
    print_entry(channels[which].name, channels[which].peak, " W at most\n");
}

static void command_average(u32 which)
{
    u32 sum = 0;
    for (u32 i = 0; i < SAMPLES; i++)
        sum += log_of_samples[i];
    print_entry(channels[which].name, sum / SAMPLES, " W on average\n");
}

static void command_reset(u32 which)
{
    channels[which].total = 0;
    channels[which].peak = 0;
    print_entry(channels[which].name, 0, " Wh\n");
}

struct command {
    const char *name;
    void (*run)(u32 which);
};

static const struct command commands[] = {
    { "measure", command_measure },
    { "average", command_average },
    { "peak", command_peak },
    { "reset", command_reset },
};

enum { COMMANDS = sizeof commands / sizeof commands[0] };

// What a self-test would call. Nothing calls it here, and without --gc-sections the linker keeps it.
void self_test(void)
{
    for (u32 which = 0; which < CHANNELS; which++) {
        command_reset(which);
        command_measure(which);
    }
    print("self-test done\n");
}

int main(void)
{
    for (u32 which = 0; which < CHANNELS; which++) {
        for (u32 i = 0; i < COMMANDS; i++) {
            print(commands[i].name);
            print(" ");
            commands[i].run(which);
        }
    }
    return 0;
}
