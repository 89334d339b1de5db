#include "choice.h"

/* splitmix64: a well-known generator of one word, which any seed suits. */
static uint64_t next(uint64_t *state)
{
    uint64_t z = *state += UINT64_C(0x9E3779B97F4A7C15);
    z = (z ^ (z >> 30)) * UINT64_C(0xBF58476D1CE4E5B9);
    z = (z ^ (z >> 27)) * UINT64_C(0x94D049BB133111EB);
    return z ^ (z >> 31);
}

void choice_seed(choice *from, uint64_t seed)
{
    from->seeded = seed;
    from->fed = 0;
    from->bytes = NULL;
    from->length = 0;
    from->place = 0;
}

void choice_feed(choice *from, const uint8_t *bytes, size_t length)
{
    choice_seed(from, 0);
    from->fed = 1;
    from->bytes = bytes;
    from->length = length;
}

int choice_done(const choice *from)
{
    return from->fed && from->place == from->length;
}

static uint32_t fed_word(choice *from, uint32_t count)
{
    uint32_t word = 0;
    for (uint32_t reach = count - 1; reach != 0; reach >>= 8) {
        word = word << 8 | (choice_done(from) ? 0 : from->bytes[from->place++]);
    }
    return word;
}

uint32_t choice_below(choice *from, uint32_t count)
{
    if (count <= 1) {
        return 0;
    }
    if (from->fed) {
        return fed_word(from, count) % count;
    }
    return (uint32_t)((next(&from->seeded) >> 32) * count >> 32);
}

int choice_one_in(choice *from, uint32_t count)
{
    return choice_below(from, count) == count - 1;
}

uint32_t choice_of(choice *from, const uint32_t *list, size_t count)
{
    return list[choice_below(from, (uint32_t)count)];
}

int choice_read(const char *text, uint64_t *number)
{
    uint64_t value = 0;
    if (*text == '\0') {
        return 0;
    }
    for (; *text != '\0'; text++) {
        unsigned digit = (unsigned)*text - '0';
        if (digit > 9 || value > (UINT64_MAX - digit) / 10) {
            return 0;
        }
        value = value * 10 + digit;
    }
    *number = value;
    return 1;
}

void choice_noise(uint8_t *bytes, size_t length)
{
    uint64_t state = 1;
    for (size_t i = 0; i < length; i++) {
        bytes[i] = (uint8_t)(next(&state) >> 56);
    }
}
