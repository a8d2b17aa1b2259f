/* The generator: splitmix64, started anew for each case so that a case can be run alone. */
#include <string.h>

#include "inputs.h"

static uint64_t state;

static uint64_t mixed(uint64_t word)
{
    word = (word ^ (word >> 30)) * 0xbf58476d1ce4e5b9u;
    word = (word ^ (word >> 27)) * 0x94d049bb133111ebu;
    return word ^ (word >> 31);
}

void start_case(uint64_t seed, uint64_t number)
{
    state = mixed(mixed(seed + 1) + number);
}

uint64_t any(void)
{
    state += 0x9e3779b97f4a7c15u;
    return mixed(state);
}

uint64_t below(uint64_t count)
{
    return any() % count;
}

int64_t between(int64_t lo, int64_t hi)
{
    return lo + (int64_t)below((uint64_t)(hi - lo) + 1);
}

int one_in(unsigned count)
{
    return below(count) == 0;
}

int64_t one_of(const int64_t *values, size_t count)
{
    return values[below(count)];
}

int64_t clamped(int64_t value, int64_t lo, int64_t hi)
{
    return value < lo ? lo : value > hi ? hi : value;
}

int64_t any_coordinate(int axis)
{
    return between(limits[axis].least, limits[axis].greatest);
}

int64_t in_range(int axis, int64_t value)
{
    return clamped(value, limits[axis].least, limits[axis].greatest);
}

void fill(void *bytes, size_t count)
{
    unsigned char *at = bytes;
    for (; count >= 8; at += 8, count -= 8) {
        uint64_t word = any();
        memcpy(at, &word, 8);
    }
    for (; count > 0; count--)
        *at++ = (unsigned char)any();
}
