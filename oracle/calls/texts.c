/* A stored text on the desk, for the readings and the check: put together here, not by the writer, from numbers that are mostly right, and then now and
   then damaged. Only those bytes are placed that differ from what stands there. */
#include "desk.h"

#include <string.h>

static uint8_t wanted[TEXT];
static size_t wanted_size;

static void put(uint64_t x, size_t digits)
{
    size_t k;
    for (k = digits; k-- > 0; x >>= 4)
        wanted[wanted_size + k] = (uint8_t)"0123456789abcdef"[x & 15];
    wanted_size += digits;
}

static void end_line(void) { wanted[wanted_size++] = '\n'; }

/* A valid state in most. An empty ring with another head is an older text where that head is below the capacity, else wrong. */
static void compose(uint64_t kind, size_t capacity)
{
    uint64_t length = below(4) == 0 ? 0 : below(capacity + 1), head = kind == TUM_KIND_RING && length > 0 ? below(capacity) : 0;
    uint64_t form = 0, told = capacity;
    size_t k;
    switch (below(24)) {
    case 0:
    case 1: length = 0, head = below(capacity + 2); break;
    case 2: head = below(2) ? capacity : below(65536); break;
    case 3: length = below(2) ? capacity + 1 : below(65536); break;
    case 4: form = 1 + below(255); break;
    case 5: told = below(2) ? capacity + 1 : below(65536); break;
    default: break;
    }
    wanted_size = 0;
    put(kind, 2);
    put(form, 2);
    put(told, 4);
    put(head, 4);
    put(length, 4);
    end_line();
    for (k = 0; k < capacity; k++) {
        put(capacity <= 100 || below(capacity) < 60 ? entry() : 0, 8);
        end_line();
    }
}

/* A byte too many or too few, many too few, or another byte, half of them in the first line. */
static void damage(void)
{
    static const char others[] = "09afgAF/:`@G-\n\r ";
    size_t at = (size_t)below(below(2) ? TUM_TEXT_BYTES(0) : wanted_size);
    switch (below(8)) {
    case 0: end_line(); break;
    case 1: wanted_size--; break;
    case 2: wanted_size = (size_t)below(wanted_size); break;
    case 3: wanted[at] = (uint8_t)(wanted[at] ^ 1u << below(8)); break;
    default: wanted[at] = (uint8_t)others[below(sizeof others - 1)]; break;
    }
}

static void settle(void)
{
    size_t k;
    if (wanted_size != text_size)
        line(0x0a, wanted_size, 0);
    for (k = text_size; k < wanted_size; k++)
        text[k] = '-';
    text_size = wanted_size;
    for (k = 0; k < text_size; k++)
        if (text[k] != wanted[k])
            line(0x0b, k, text[k] = wanted[k]);
}

/* One in some stays as a call before left it: what a writer wrote, or a text that was read or checked. */
void place_text(uint64_t kind)
{
    if (first.capacity <= 100 && below(6) == 0)
        return;
    compose(below(12) == 0 ? below(4) : kind, below(5) == 0 ? some_capacity() : first.capacity);
    if (below(4) == 0)
        damage();
    settle();
}
