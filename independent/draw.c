#include "draw.h"

#include <string.h>

enum { NOISE_PLACES = 65536 };

uint32_t draw_cut(choice *from, uint32_t good, unsigned bits)
{
    const uint32_t above[] = {1, 2, 256, UINT32_MAX >> bits};
    return good + (CHOICE_OF(from, above) << bits);
}

harsolvek_settings draw_settings(choice *from)
{
    const uint32_t limits[] = {10000, 1, 2, 1 + choice_below(from, 10000),
                               1 + choice_below(from, 10000)};
    harsolvek_settings settings;
    settings.limit = CHOICE_OF(from, limits);
    settings.resends = choice_below(from, 11);
    if (choice_one_in(from, 16)) {
        settings.limit = draw_wrong_limit(from);
    }
    if (choice_one_in(from, 16)) {
        settings.resends = draw_wrong_resends(from);
    }
    return settings;
}

uint16_t draw_word(choice *from)
{
    const uint32_t words[] = {choice_below(from, 65536), 0, 1, 255, 256, 65534, 65535};
    return (uint16_t)(choice_one_in(from, 2) ? CHOICE_OF(from, words) : words[0]);
}

size_t draw_out_length(choice *from)
{
    static const uint32_t lengths[] = {260, 0, 1, 259, 261, 300};
    return choice_one_in(from, 10) ? CHOICE_OF(from, lengths) : 260;
}

size_t draw_lent_length(choice *from, size_t length)
{
    const size_t wrong[] = {length > 0 ? length - 1 : 1, length + 1, 0,
                            length + (size_t)UINT32_MAX + 1};
    return choice_one_in(from, 24) ? wrong[choice_below(from, 4)] : length;
}

size_t draw_small_length(choice *from)
{
    const uint32_t lengths[] = {
        choice_below(from, 1025), 1, 255, 256, 257, 511, 512, 513, 1023, 1024};
    return CHOICE_OF(from, lengths);
}

size_t draw_large_length(choice *from, size_t edge)
{
    static const size_t carry[] = {256 * 256, 256 * 256 - 1, 256 * 256 + 1, 257 * 256, 258 * 256};
    const size_t full[] = {HARSOLVEK_IMAGE_MOST, HARSOLVEK_IMAGE_MOST - 1, 4095 * 256, edge};
    if (choice_one_in(from, 40)) {
        return carry[choice_below(from, 5)];
    }
    return choice_one_in(from, 120) ? full[choice_below(from, 4)] : 0;
}

uint32_t draw_elapsed(choice *from, unsigned limit, unsigned left)
{
    const uint32_t small[] = {0, 1, left - 1, choice_below(from, left)};
    const uint32_t any[] = {
        left, left + 1, limit - 1, limit, limit + 1, 65535, choice_below(from, 65536)};
    const uint32_t wide[] = {65536, 65536 + choice_below(from, left), UINT32_MAX,
                             UINT32_MAX - choice_below(from, 65536)};
    if (choice_one_in(from, 16)) {
        return CHOICE_OF(from, wide);
    }
    return choice_one_in(from, 2) ? CHOICE_OF(from, any) : CHOICE_OF(from, small);
}

uint8_t draw_wait(choice *from)
{
    const uint32_t waits[] = {1, 254, 255, choice_below(from, 256)};
    return (uint8_t)(choice_one_in(from, 4) ? CHOICE_OF(from, waits) : 0);
}

void draw_noise(choice *from, uint8_t *bytes, size_t length)
{
    static uint8_t noise[NOISE_PLACES + DRAW_MESSAGE_MOST];
    static int made;
    if (!made) {
        choice_noise(noise, sizeof noise);
        made = 1;
    }
    memcpy(bytes, noise + choice_below(from, NOISE_PLACES), length);
}

size_t draw_slip(choice *from, uint8_t *bytes, size_t length)
{
    static const uint32_t versions[] = {0, 2, 0x81, 0xFF};
    static const uint32_t lengths[] = {0, 1, 2, 3, 4, 259, 260, 261, 300};
    switch (choice_below(from, 7)) {
    case 0:
        return length + 1;
    case 1:
        return length - 1;
    case 2:
        return CHOICE_OF(from, lengths);
    case 3:
        bytes[0] = (uint8_t)CHOICE_OF(from, versions);
        return length;
    case 4:
        bytes[1] = (uint8_t)choice_below(from, 256);
        return length;
    case 5:
        bytes[1] ^= 0x80;
        return length;
    default:
        bytes[choice_below(from, (uint32_t)length)] ^= (uint8_t)(1u << choice_below(from, 8));
        return length;
    }
}

void draw_put(uint8_t *bytes, unsigned number)
{
    bytes[0] = (uint8_t)(number & 0xFF);
    bytes[1] = (uint8_t)(number >> 8 & 0xFF);
}

uint32_t draw_wrong(choice *from, uint32_t least, uint32_t most)
{
    const uint32_t numbers[] = {least, most, least + choice_below(from, most - least)};
    return CHOICE_OF(from, numbers);
}

/* The least and the most numbers of 8, 16, 24 and 32 bits, and any other. */
static uint32_t draw_border(choice *from)
{
    const uint32_t borders[] = {0,          1,          255,        256,
                                65535,      65536,      0x00FFFFFF, 0x01000000,
                                0x7FFFFFFF, 0x80000000, 0xFFFFFFFF, draw_word(from)};
    return CHOICE_OF(from, borders);
}

unsigned draw_damage(choice *from, unsigned kinds, uint32_t *word, uint32_t words)
{
    const unsigned kind = choice_below(from, kinds);
    if (kind == 0) {
        memset(word, 0, words * sizeof *word);
    } else if (kind == 1) {
        word[choice_below(from, words)] = draw_border(from);
    } else if (kind == 2) {
        word[choice_below(from, words)] ^= (uint32_t)1 << choice_below(from, 32);
    } else if (kind == 3) {
        draw_noise(from, (uint8_t *)word, words * sizeof *word);
    }
    return kind;
}

uint32_t draw_code(choice *from, unsigned count)
{
    const uint32_t good = choice_below(from, count);
    const uint32_t wrong[] = {draw_wrong(from, count, UINT32_MAX), draw_cut(from, good, 8)};
    return choice_one_in(from, 2) ? CHOICE_OF(from, wrong) : good;
}

uint32_t draw_wrong_limit(choice *from)
{
    const uint32_t wrong[] = {0, draw_wrong(from, 10001, UINT32_MAX), 65535,
                              draw_cut(from, 1 + choice_below(from, 10000), 16)};
    return CHOICE_OF(from, wrong);
}

uint32_t draw_wrong_resends(choice *from)
{
    const uint32_t wrong[] = {11, 255, draw_wrong(from, 11, UINT32_MAX),
                              draw_cut(from, choice_below(from, 11), 8)};
    return CHOICE_OF(from, wrong);
}

unsigned draw_beside(choice *from, unsigned due)
{
    const uint32_t wrong[] = {due + 1, due - 1, due + 256, 0, draw_word(from)};
    return choice_one_in(from, 12) ? CHOICE_OF(from, wrong) & 0xFFFF : due;
}
