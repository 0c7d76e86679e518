/* What replay can't show: that the inline functions of a record do what the archive's functions do (oracle/records-run holds those to Python's csv),
   and each number of an answer under its name. */
#include "desk.h"

#include <stdio.h>
#include <stdlib.h>
#include <string.h>

enum { LONG = 65536 };
enum { READ, JUDGE, FIELD };
const char *const record_names[RECORD_KINDS] = {"tumrecord_read", "tumrecord_judge", "tumrecord_text"};
unsigned long record_met[RECORD_KINDS][2];
static uint8_t long_text[LONG]; /* one byte longer than a text may be */

static void must(int holds, const char *what)
{
    if (!holds) {
        fprintf(stderr, "oracle/calls: does not hold: %s\n", what);
        exit(1);
    }
}
#define MUST(what) must(what, #what)

static int is_answer(tum_answer a, uint64_t word)
{
    return a.number == word >> 60 && a.moves == (word >> 48 & 0xfff) && a.slot == (word >> 32 & 0xffff) && a.value == (word & UINT32_MAX);
}

static void tally(int which, tum_answer a, int same)
{
    if (!same) {
        fprintf(stderr, "oracle/calls: %s does something else than the archive's function\n", record_names[which]);
        exit(1);
    }
    record_met[which][a.number != TUM_DONE]++;
}

static int same_side(const side *s, const uint32_t *slots, const uint64_t *state)
{
    return s->length == state[0] && s->total == state[1] && memcmp(s->slots, slots, (s->capacity + BEHIND) * sizeof slots[0]) == 0;
}

static void read_both(const uint8_t *bytes, size_t size)
{
    static uint32_t starts[MOST + BEHIND], ends[MOST + BEHIND];
    uint64_t state[2], other[2], word;
    tum_vector v, t;
    tum_answer a;
    some_side(&first, some_capacity(), below(4) != 0);
    some_side(&second, some_capacity(), below(4) != 0);
    memcpy(starts, first.slots, sizeof starts);
    memcpy(ends, second.slots, sizeof ends);
    state[0] = first.length, state[1] = first.total;
    other[0] = second.length, other[1] = second.total;
    word = tum_record_read(bytes, size, starts, first.capacity, state, ends, second.capacity, other);
    v = vector_of(&first);
    t = vector_of(&second);
    a = tumrecord_read(bytes, size, &v, &t);
    vector_left(&first, &v);
    vector_left(&second, &t);
    tally(READ, a, is_answer(a, word) && same_side(&first, starts, state) && same_side(&second, ends, other));
}

/* The text, one of its fields perhaps, and room for it are drawn; now and then the text is too long. */
static void one_text(void)
{
    static const char letters[] = "aab ,,,\"\"\r\n\n";
    uint8_t bytes[24], one[24], two[24];
    size_t size = (size_t)below(sizeof bytes + 1), start = (size_t)below(size + 2), end = (size_t)below(size + 2), room = (size_t)below(sizeof one), k;
    const uint8_t *whole = bytes;
    tum_answer a;
    for (k = 0; k < size; k++)
        bytes[k] = (uint8_t)letters[below(sizeof letters - 1)];
    if (below(50) == 0)
        whole = long_text, size = LONG;
    memset(one, '-', sizeof one);
    memset(two, '-', sizeof two);
    read_both(whole, size);
    a = tumrecord_judge(whole, size);
    tally(JUDGE, a, is_answer(a, tum_record_judge(whole, size)));
    a = tumrecord_text(whole, size, start, end, one, room);
    tally(FIELD, a, is_answer(a, tum_record_text(whole, size, start, end, two, room)) && memcmp(one, two, sizeof one) == 0);
}

void records(uint64_t count)
{
    for (; count > 0; count--)
        one_text();
}

/* Each number under its name, from docs/RULES.md. */
void names(void)
{
    uint32_t slots[1] = {0}, more[1] = {0};
    tum_ring r, t;
    tum_vector v;
    MUST(tumring_new(&r, slots, 1).number == TUM_DONE);
    MUST(tumring_new(&t, more, 1).slot == TUM_NO_SLOT);
    MUST(tumring_pop_front(&r).number == TUM_EMPTY);
    MUST(tumring_read(&r, 0).number == TUM_NO_POSITION);
    MUST(tumring_push_back(&r, 5).number == TUM_DONE);
    MUST(tumring_push_back(&r, 6).number == TUM_FULL);
    MUST(tumring_clone(&r, &t).number == TUM_DONE);
    MUST(tumring_clone(&r, &t).number == TUM_NOT_EMPTY);
    MUST(tumring_text(&r, text, TUM_TEXT_BYTES(1)).value == TUM_TEXT_BYTES(1));
    MUST(tumring_text(&r, text, TUM_TEXT_BYTES(1) - 1).number == TUM_FULL);
    MUST(tumstored_check(text, TUM_TEXT_BYTES(1), TUM_KIND_RING) == 1);
    MUST(tumstored_check(text, TUM_TEXT_BYTES(1), TUM_KIND_VECTOR) == 0);
    MUST(tumring_text_read(&t, more, 1, text, TUM_TEXT_BYTES(1)).number == TUM_DONE);
    MUST(tumring_total(&t) == 5);
    MUST(tumring_text_read(&t, more, 0, text, TUM_TEXT_BYTES(1)).number == TUM_FULL);
    MUST(tumvec_text_read(&v, more, 1, text, TUM_TEXT_BYTES(1)).number == TUM_NOT_ACCEPTABLE);
    MUST(tumring_new(&t, more, 1).number == TUM_DONE);
    t.state[0] = 1;
    MUST(tumring_same(&r, &t).number == TUM_INVALID_SECOND);
    MUST(tumring_same(&t, &r).number == TUM_INVALID);
    MUST(tumring_new(&r, first.slots, TUM_MOST_SLOTS).number == TUM_DONE);
    MUST(tumring_resize(&r, 2, 5).number == TUM_DONE);
    MUST(tumring_insert_within(&r, 1, 6, 0).number == TUM_OVER_ALLOWANCE);
    MUST(tumring_new(&r, first.slots, TUM_MOST_SLOTS + 1).number == TUM_INVALID);
    MUST(tumrecord_judge((const uint8_t *)"a\"", 2).number == TUM_STRAY_BYTE);
    MUST(tumrecord_judge((const uint8_t *)"a,\"", 3).number == TUM_OPEN_QUOTE);
    MUST(tumrecord_judge(long_text, LONG).number == TUM_LONG_TEXT);
}

/* The largest numbers that a word has to hold. */
void largest(void)
{
    tum_vector v;
    MUST(tumvec_from_elem(&v, first.slots, TUM_MOST_SLOTS, TUM_MOST_SLOTS, UINT32_MAX).number == TUM_DONE);
    MUST(tumvec_total(&v) == (uint64_t)TUM_MOST_SLOTS * UINT32_MAX);
    MUST(tumvec_as_slice(&v).count == TUM_MOST_SLOTS);
    MUST(tumvec_read(&v, TUM_MOST_SLOTS - 1).slot == TUM_MOST_SLOTS - 1);
    MUST(tumvec_remove(&v, 0).moves == TUM_MOST_SLOTS - 1);
    MUST(tumvec_remove(&v, 0).value == UINT32_MAX);
}
