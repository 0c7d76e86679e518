/* The desk: containers in any state, valid or not, a cursor, and the lines that place them on replay's desk. */
#include "desk.h"

#include <inttypes.h>
#include <stdio.h>
#include <stdlib.h>

enum { LINE = 35 };
static const uint32_t MARK = 0xa5a5a5a5u; /* in the slots behind */

side first, second;
tum_cursor cursor;
uint64_t chance;
int silent;
static char said[(2 * MOST + TEXT + CALLS * 1000 + 8) * LINE + 1]; /* the lines since a desk was placed */
static size_t said_size;

/* Xorshift, so that a seed gives the same calls on every machine. */
uint64_t draw(void)
{
    chance ^= chance << 13;
    chance ^= chance >> 7;
    chance ^= chance << 17;
    return chance;
}

uint64_t below(uint64_t n) { return (draw() >> 24) % n; }

uint64_t wide(void)
{
    static const uint64_t far[] = {0xffffffffu, 0x100000000u, 0x100000001u, UINT64_MAX >> 1, UINT64_MAX - 1, UINT64_MAX};
    return far[below(sizeof far / sizeof far[0])];
}

uint32_t entry(void)
{
    switch (below(8)) {
    case 0: return UINT32_MAX;
    case 1:
    case 2: return (uint32_t)below(4);
    default: return (uint32_t)(draw() >> 32);
    }
}

void fail(const char *what)
{
    fprintf(stderr, "oracle/calls: %s\n", what);
    if (said_size > 0 && said_size <= 200 * LINE)
        fprintf(stderr, "the desk and the calls on it, as lines of replay, the last one at fault:\n%.*s", (int)said_size, said);
    exit(1);
}

void line(unsigned code, uint64_t a, uint64_t b)
{
    char *at = said + said_size;
    if (said_size + LINE >= sizeof said)
        fail("more lines on one desk than it has room for");
    sprintf(at, "%02x%016" PRIx64 "%016" PRIx64 "\n", code, a, b);
    said_size += LINE;
    if (!silent)
        fwrite(at, 1, LINE, stdout);
}

static void say_side(const side *s, unsigned code, unsigned total)
{
    size_t k;
    line(code, s->capacity, 0);
    line(code + 1, s->head, s->length);
    line(total, s->total, 0);
    for (k = 0; k < s->capacity; k++)
        if (s->slots[k] != 0)
            line(code + 2, k, s->slots[k]);
}

static int is_ring(const side *s)
{
    return s->capacity <= TUM_MOST_SLOTS && s->length <= s->capacity && (s->length == 0 ? s->head == 0 : s->head < s->capacity);
}

static uint64_t some_total(const side *s)
{
    uint64_t sum = 0;
    size_t j;
    switch (below(8)) {
    case 0: return 0;
    case 1: return UINT64_MAX - below(1000);
    case 2: return below(1000);
    case 3: return draw();
    default:
        for (j = 0; is_ring(s) && j < s->length; j++)
            sum += s->slots[(s->head + j) % s->capacity];
        return sum;
    }
}

static uint64_t some_length(size_t capacity)
{
    switch (below(20)) {
    case 0: return capacity + 1;
    case 1: return wide();
    case 2:
    case 3:
    case 4: return capacity;
    case 5:
    case 6:
    case 7: return 0;
    default: return below(capacity + 1);
    }
}

static uint64_t some_head(size_t capacity, uint64_t length)
{
    if (length == 0 && below(6) != 0)
        return 0;
    switch (below(30)) {
    case 0: return capacity;
    case 1: return wide();
    default: return below(capacity > 0 ? capacity : 1);
    }
}

static void bare(side *s, size_t capacity)
{
    size_t k;
    s->capacity = capacity;
    for (k = 0; k < capacity + BEHIND; k++)
        s->slots[k] = k < capacity ? 0 : MARK;
}

void some_side(side *s, size_t capacity, int empty)
{
    size_t k;
    bare(s, capacity);
    for (k = 0; k < 60 && k < capacity; k++) /* of a large one only some slots, so that its lines stay few */
        s->slots[capacity <= 60 ? k : below(capacity)] = entry();
    s->length = empty ? 0 : some_length(capacity);
    s->head = some_head(capacity, s->length);
    s->total = some_total(s);
}

/* The second gets the first's list, from another head on other slots, now and then with a slot changed: by chance two lists are hardly ever equal. */
static void copy_first(void)
{
    size_t n = (size_t)first.length, j;
    bare(&second, n + (size_t)below(4));
    second.length = n;
    second.head = n > 0 && below(2) ? below(second.capacity) : 0;
    for (j = 0; j < n; j++)
        second.slots[(second.head + j) % second.capacity] = first.slots[(first.head + j) % first.capacity];
    if (n > 0 && below(4) == 0)
        second.slots[below(second.capacity)] ^= 1;
    second.total = some_total(&second);
}

void place_cursor(void)
{
    uint64_t n = first.length <= MOST ? first.length : MOST, one = below(n + 1), two = below(n + 1);
    cursor.at[0] = (size_t)(one < two ? one : two);
    cursor.at[1] = (size_t)(one < two ? two : one);
    if (below(8) == 0)
        cursor.at[below(2)] = (size_t)(below(2) ? n + 1 : below(2) ? wide() : below(n + 2));
    line(7, cursor.at[0], cursor.at[1]);
}

size_t some_capacity(void) { return (size_t)(below(40) == 0 ? 13 + below(60) : below(13)); }

void place(size_t capacity)
{
    said_size = 0;
    some_side(&first, capacity, 0);
    if (below(6) == 0 && is_ring(&first) && first.length < 100)
        copy_first();
    else
        some_side(&second, below(3) == 0 ? capacity : some_capacity(), below(2) == 0);
    say_side(&first, 1, 8);
    say_side(&second, 4, 9);
    place_cursor();
}

void look_behind(const side *s)
{
    size_t k;
    for (k = s->capacity; k < s->capacity + BEHIND; k++)
        if (s->slots[k] != MARK)
            fail("a slot behind those that were lent is changed");
}
