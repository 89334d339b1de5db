#include "lent.h"

#include <string.h>

void lent_lay(lent *memory, void *arenas, size_t size, size_t shift)
{
    memory->library = (uint8_t *)arenas + LENT_GUARD + shift;
    memory->second = memory->library + size / 3;
    memory->before = memory->second + size / 3;
}

void lent_fill(const lent *memory, size_t length, uint8_t byte)
{
    memset(memory->before - LENT_GUARD, byte, LENT_GUARD + length + LENT_GUARD);
    memcpy(memory->library - LENT_GUARD, memory->before - LENT_GUARD,
           LENT_GUARD + length + LENT_GUARD);
    memcpy(memory->second - LENT_GUARD, memory->before - LENT_GUARD,
           LENT_GUARD + length + LENT_GUARD);
}

void lent_spread(const lent *memory, size_t length)
{
    memcpy(memory->library, memory->before, length);
    memcpy(memory->second, memory->before, length);
}

void lent_wipe(const lent *memory, size_t length, uint8_t byte)
{
    memset(memory->before, byte, length);
    lent_spread(memory, length);
}

/* Whether the library's copy is as before, but for `count` bytes at `at`. */
static int as_before(const lent *memory, size_t length, size_t at, size_t count)
{
    size_t rest = at + count;
    if (at > length || count > length - at) {
        return 0;
    }
    if (memcmp(memory->library - LENT_GUARD, memory->before - LENT_GUARD, LENT_GUARD + at) != 0) {
        return 0;
    }
    return memcmp(memory->library + rest, memory->before + rest, length - rest + LENT_GUARD) == 0;
}

int lent_kept(const lent *memory, size_t length, size_t at, size_t count)
{
    if (memcmp(memory->library - LENT_GUARD, memory->second - LENT_GUARD,
               LENT_GUARD + length + LENT_GUARD) != 0) {
        return 0;
    }
    if (!as_before(memory, length, at, count)) {
        return 0;
    }
    memcpy(memory->before + at, memory->library + at, count);
    return 1;
}

int lent_held(const lent *memory, size_t length, size_t at, size_t count)
{
    if (!as_before(memory, length, at, count)) {
        return 0;
    }
    memcpy(memory->library + at, memory->before + at, count);
    return 1;
}

size_t lent_part(size_t length, size_t most)
{
    return length < most ? length : most;
}

uint8_t *lent_or_null(uint8_t *bytes, size_t length, int null)
{
    return length == 0 && null ? NULL : bytes;
}

void lent_print(FILE *to, const char *name, const uint8_t *bytes, size_t length)
{
    size_t end = length;
    while (end > 0 && bytes[end - 1] == 0) {
        end--;
    }
    fprintf(to, "  %s, %lu bytes:", name, (unsigned long)length);
    for (size_t i = 0; i < end; i++) {
        fprintf(to, " %02X", (unsigned)bytes[i]);
    }
    fprintf(to, "%s\n", end < length ? ", zeros" : "");
}
