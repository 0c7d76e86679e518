/* The calls by replay's numbers (docs/REPLAY.md), each through its inline function. */
#include "desk.h"

#include <string.h>

uint8_t text[TEXT + BEHIND];
size_t text_size;
uint32_t lent[MOST];
size_t lent_count;
uint8_t lent_number;

tum_ring ring_of(side *s)
{
    tum_ring r;
    r.slots = s->slots;
    r.capacity = s->capacity;
    r.state[0] = s->head;
    r.state[1] = s->length;
    r.state[2] = s->total;
    return r;
}

static void ring_left(side *s, const tum_ring *r)
{
    s->head = tumring_head(r);
    s->length = tumring_length(r);
    s->total = tumring_total(r);
}

tum_vector vector_of(side *s)
{
    tum_vector v;
    v.slots = s->slots;
    v.capacity = s->capacity;
    v.state[0] = s->length;
    v.state[1] = s->total;
    return v;
}

void vector_left(side *s, const tum_vector *v)
{
    s->head = 0;
    s->length = tumvec_length(v);
    s->total = tumvec_total(v);
}

static tum_answer call_ring(unsigned code, tum_ring *r, size_t a, uint32_t x)
{
    switch (code) {
    case 0x10: return tumring_new(r, first.slots, first.capacity);
    case 0x11: return tumring_with_capacity(r, first.slots, first.capacity, a);
    case 0x12: return tumring_len(r);
    case 0x13: return tumring_read(r, a);
    case 0x14: return tumring_reserve(r, a);
    case 0x15: return tumring_write(r, a, x);
    case 0x16: return tumring_push_back(r, x);
    case 0x17: return tumring_push_front(r, x);
    case 0x18: return tumring_pop_back(r);
    case 0x19: return tumring_pop_front(r);
    case 0x1a: return tumring_insert(r, a, x);
    case 0x1b: return tumring_remove(r, a);
    case 0x1c: return tumring_truncate(r, a);
    case 0x1d: return tumring_resize(r, a, x);
    default: return tumring_clear(r);
    }
}

static tum_answer call_vector(unsigned code, tum_vector *v, size_t a, size_t b)
{
    uint32_t x = (uint32_t)(b & UINT32_MAX);
    switch (code) {
    case 0x20: return tumvec_new(v, first.slots, first.capacity);
    case 0x21: return tumvec_with_capacity(v, first.slots, first.capacity, a);
    case 0x22: return tumvec_len(v);
    case 0x23: return tumvec_read(v, a);
    case 0x24: return tumvec_reserve(v, a);
    case 0x25: return tumvec_write(v, a, x);
    case 0x26: return tumvec_push(v, x);
    case 0x27: return tumvec_pop(v);
    case 0x28: return tumvec_from_elem(v, first.slots, first.capacity, a, x);
    case 0x29: return tumvec_swap_remove(v, a);
    case 0x2a: return tumvec_insert(v, a, x);
    case 0x2b: return tumvec_remove(v, a);
    case 0x2c: return tumvec_truncate(v, a);
    case 0x2d: return tumvec_resize(v, a, x);
    case 0x2e: return tumvec_clear(v);
    case 0x2f: return tumvec_extend_from_slice(v, second.slots, a);
    case 0x30: return tumvec_is_empty(v);
    case 0x31: return tumvec_try_reserve(v, a);
    case 0x32: return tumvec_try_reserve_exact(v, a);
    default: return tumvec_ask_range(v, a, b);
    }
}

static tum_part part_of(unsigned code, tum_vector *v, size_t a, size_t b)
{
    switch (code) {
    case 0x38: return tumvec_range(v, a, b);
    case 0x39: return tumvec_as_slice(v);
    case 0x3a: return tumvec_as_ref(v);
    case 0x3b: return tumvec_deref(v);
    case 0x3c: return tumvec_as_mut_slice(v);
    default: return tumvec_deref_mut(v);
    }
}

/* A part bears no number: replay prints 0, with its length as the value. 3c and 3d write an entry through it once it is shown. */
static tum_answer call_part(unsigned code, tum_vector *v, size_t a, size_t b)
{
    tum_answer did = {0, TUM_NO_SLOT, 0, TUM_DONE};
    tum_part p = part_of(code, v, a, b);
    size_t from = code == 0x38 ? a : 0, to = code == 0x38 ? b : (size_t)v->state[0];
    lent_number = tumvec_ask_range(v, from, to).number;
    if (p.first != (lent_number == TUM_DONE ? from : 0))
        fail("a part begins at another slot");
    if (p.first > first.capacity || p.count > first.capacity - p.first)
        fail("a part ends behind the slots");
    lent_count = p.count;
    memcpy(lent, v->slots + p.first, p.count * sizeof lent[0]);
    if (code >= 0x3c && a < p.count)
        v->slots[p.first + a] = (uint32_t)(b & UINT32_MAX);
    did.value = (uint32_t)p.count;
    return did;
}

static tum_answer call_rings(unsigned code, tum_ring *r, size_t at)
{
    tum_ring t = ring_of(&second);
    tum_answer did;
    switch (code) {
    case 0x40: did = tumring_append(r, &t); break;
    case 0x41: did = tumring_split_off(r, at, &t); break;
    case 0x42: did = tumring_clone(r, &t); break;
    default: did = tumring_same(r, &t); break;
    }
    ring_left(&second, &t);
    return did;
}

static tum_answer call_vectors(unsigned code, tum_vector *v, size_t at)
{
    tum_vector t = vector_of(&second);
    tum_answer did;
    switch (code) {
    case 0x50: did = tumvec_append(v, &t); break;
    case 0x51: did = tumvec_split_off(v, at, &t); break;
    case 0x52: did = tumvec_clone(v, &t); break;
    default: did = tumvec_equal(v, &t); break;
    }
    vector_left(&second, &t);
    return did;
}

static tum_answer walk_ring(unsigned code, const tum_ring *r, size_t k)
{
    tum_vector t = vector_of(&second);
    tum_answer did;
    switch (code) {
    case 0x60: return tumring_iter(r, &cursor);
    case 0x61: return tumring_into_iter(r, &cursor);
    case 0x62: return tumring_step_front(r, &cursor);
    case 0x63: return tumring_step_back(r, &cursor);
    case 0x64: return tumring_peek_front(r, &cursor, k);
    case 0x65: return tumring_peek_back(r, &cursor, k);
    case 0x66: did = tumring_from_iter(r, &cursor, &t); break;
    default: did = tumring_same_as_vector(r, &t); break; /* 44 stands here since its second is a vector too */
    }
    vector_left(&second, &t);
    return did;
}

static tum_answer walk_vector(unsigned code, const tum_vector *v, size_t k)
{
    tum_vector t = vector_of(&second);
    tum_answer did;
    switch (code) {
    case 0x70: return tumvec_iter(v, &cursor);
    case 0x71: return tumvec_into_iter(v, &cursor);
    case 0x72: return tumvec_step_front(v, &cursor);
    case 0x73: return tumvec_step_back(v, &cursor);
    case 0x74: return tumvec_peek_front(v, &cursor, k);
    case 0x75: return tumvec_peek_back(v, &cursor, k);
    default: did = tumvec_from_iter(v, &cursor, &t); break;
    }
    vector_left(&second, &t);
    return did;
}

/* The allowance is the cursor's front, as replay has it. */
static tum_answer call_within(unsigned code, tum_ring *r, size_t a, uint32_t x)
{
    return code == 0x90 ? tumring_insert_within(r, a, x, cursor.at[0]) : tumring_remove_within(r, a, cursor.at[0]);
}

/* A check bears no number either: its yes or no is the value. */
static tum_answer call_text(unsigned code, tum_ring *r, tum_vector *v, size_t a)
{
    tum_answer did = {0, TUM_NO_SLOT, 0, TUM_DONE};
    switch (code) {
    case 0x80: return tumring_text(r, text, a);
    case 0x81: return tumvec_text(v, text, a);
    case 0x82: return tumring_text_read(r, first.slots, first.capacity, text, text_size);
    case 0x83: return tumvec_text_read(v, first.slots, first.capacity, text, text_size);
    default: did.value = (uint32_t)tumstored_check(text, text_size, a); return did;
    }
}

tum_answer call(unsigned code, size_t a, size_t b)
{
    tum_ring r = ring_of(&first);
    tum_vector v = vector_of(&first);
    tum_answer did;
    int as_ring = 0;
    lent_count = 0;
    if (code == 0x80 || code == 0x81) {
        memset(text, '-', a + BEHIND);
        text_size = a;
    }
    switch (code >> 4) {
    case 1: as_ring = 1, did = call_ring(code, &r, a, (uint32_t)(b & UINT32_MAX)); break;
    case 2: did = call_vector(code, &v, a, b); break;
    case 3: did = code >= 0x38 ? call_part(code, &v, a, b) : call_vector(code, &v, a, b); break;
    case 4: as_ring = 1, did = code == 0x44 ? walk_ring(code, &r, a) : call_rings(code, &r, a); break;
    case 5: did = call_vectors(code, &v, a); break;
    case 6: as_ring = 1, did = walk_ring(code, &r, a); break;
    case 7: did = walk_vector(code, &v, a); break;
    case 9: as_ring = 1, did = call_within(code, &r, a, (uint32_t)(b & UINT32_MAX)); break;
    default: as_ring = code % 2 == 0, did = call_text(code, &r, &v, a); break; /* 84 is on no container: all of the first stays, its head too */
    }
    if (as_ring)
        ring_left(&first, &r);
    else
        vector_left(&first, &v);
    return did;
}
