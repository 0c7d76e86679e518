/* Tumbrelice for C99 and C++: rings and vectors of unsigned 32-bit entries on slots that the caller lends, and records of comma-separated text.
   docs/RULES.md has the rules in full; the words here are the ones used there. Link libtumbrelice.a, which `tools/build tumbrelice` makes.

   Where state lives. The archive keeps nothing between calls, no number and no pointer. All there is of a container is the run of slots that you
   lend, at most 4,096 of them, and the struct below, which holds the state that the last call gave back. It begins with a making (tumring_new and its
   like), since a struct that is only zeroed has no slots. Write to the slots by these calls only, or through a part that is lent for writing. A struct
   that is copied is no second container: both copies stand on the same slots.

   Interrupts. Since nothing is kept, a call may be made from an interrupt. But no two calls may use one container, cursor or text at once: an interrupt
   may not use the container whose call it interrupts. Guard a container that both use, for the whole call.

   Pointers. They must point to as many slots, or bytes, as their count says, be aligned as C aligns their type and not be NULL, even where the count
   is 0. Slots, states, cursors and texts of one call must not overlap, so the two containers of a call are two different ones. No call can test that.
   Everything else is tested: whatever the numbers are, a call ends with an answer, and one that is refused changes nothing (a refused making leaves 0
   in every number of the state, a refused tumring_iter or its like in the cursor).

   Answers. Take an answer apart, and look at its number first. Don't compare a word of the archive as a whole: where no slot is reported it has 65,535
   for the slot, so that one that is done is seldom 0. */
#ifndef TUMBRELICE_H
#define TUMBRELICE_H

#include <stddef.h>
#include <stdint.h>

#ifdef __cplusplus
extern "C" {
#endif

/* The number of an answer. Where several apply the lowest is answered; the readings of a stored text and the calls on a record have an order of their
   own, which stands with them. (7 and 8 are those of the program tray; no call answers them, nor 13.) */
enum {
    TUM_DONE = 0,            /* done */
    TUM_INVALID = 1,         /* the state does not fit its slots, there are more than 4,096 of them, or an empty ring's head is not 0 */
    TUM_INVALID_SECOND = 2,  /* the same of the second container */
    TUM_NO_POSITION = 3,     /* the list has no such position, range or cursor; a start and an end that are not in the text */
    TUM_EMPTY = 4,           /* nothing is in it, or the cursor has ended */
    TUM_NOT_EMPTY = 5,       /* the second container is not empty; of a record, one of the two */
    TUM_FULL = 6,            /* no room: too few free slots, or bytes; of a stored text that is read, another number of slots than its own */
    TUM_STRAY_BYTE = 9,      /* no record: outside quotes stands a byte that may not stand there */
    TUM_OPEN_QUOTE = 10,     /* no record: a quote is never closed */
    TUM_LONG_TEXT = 11,      /* a text of more than 65,535 bytes */
    TUM_OVER_ALLOWANCE = 12, /* it would be done, but with more moves than the allowance */
    TUM_NOT_ACCEPTABLE = 14  /* no stored text of this kind */
};

enum {
    TUM_MOST_SLOTS = 4096, /* a container's */
    TUM_NO_SLOT = 65535    /* the slot of an answer that reports none */
};

/* The kind of a stored text. */
enum {
    TUM_KIND_RING = 0,
    TUM_KIND_VECTOR = 1
};

/* The bytes of a stored text. */
#define TUM_TEXT_BYTES(capacity) ((size_t)17 + (size_t)9 * (capacity))

/* A ring's state is its head, its length, its total. */
typedef struct tum_ring {
    uint32_t *slots;
    size_t capacity;
    uint64_t state[3];
} tum_ring;

/* A vector's state is its length, its total. */
typedef struct tum_vector {
    uint32_t *slots;
    size_t capacity;
    uint64_t state[2];
} tum_vector;

/* Refused, an answer has value 0, moves 0 and slot TUM_NO_SLOT (of tumrecord_judge the value is the place of the fault). */
typedef struct tum_answer {
    uint32_t value;
    uint16_t slot;  /* where the entry concerned stands, or stood before it was taken out; a lamp lights there */
    uint16_t moves; /* how many entries changed their slot */
    uint8_t number; /* TUM_DONE, or why it was refused */
} tum_answer;

/* A front and a back: what remains are the positions from front up to back, back not among them. */
typedef struct tum_cursor {
    size_t at[2];
} tum_cursor;

/* A part of a vector's slots: entry k of it stands in slots[first + k]. */
typedef struct tum_part {
    size_t first;
    size_t count;
} tum_part;

/* ---- What the archive exports ----

   The inline functions after these call them, each one once, and are what you use: there each call has its line. A run of slots goes in as a pointer
   and their number, a state by its numbers. The answer is one word: the value in the low 32 bits, the slot in the next 16, the moves in the next 12,
   the number in the high 4. A part's word has the first slot in the low 32 bits, the count in the high 32. tum_stored_check answers 1 or 0. */

uint64_t tum_ring_new(const uint32_t *slots, size_t count, uint64_t state[3]);
uint64_t tum_ring_with_capacity(const uint32_t *slots, size_t count, uint64_t state[3], size_t k);
uint64_t tum_ring_len(const uint32_t *slots, size_t count, const uint64_t state[3]);
uint64_t tum_ring_read(const uint32_t *slots, size_t count, const uint64_t state[3], size_t i);
uint64_t tum_ring_reserve(const uint32_t *slots, size_t count, const uint64_t state[3], size_t k);
uint64_t tum_ring_write(uint32_t *slots, size_t count, uint64_t state[3], size_t i, uint32_t x);
uint64_t tum_ring_push_back(uint32_t *slots, size_t count, uint64_t state[3], uint32_t x);
uint64_t tum_ring_push_front(uint32_t *slots, size_t count, uint64_t state[3], uint32_t x);
uint64_t tum_ring_pop_back(uint32_t *slots, size_t count, uint64_t state[3]);
uint64_t tum_ring_pop_front(uint32_t *slots, size_t count, uint64_t state[3]);
uint64_t tum_ring_insert(uint32_t *slots, size_t count, uint64_t state[3], size_t i, uint32_t x);
uint64_t tum_ring_remove(uint32_t *slots, size_t count, uint64_t state[3], size_t i);
uint64_t tum_ring_insert_within(uint32_t *slots, size_t count, uint64_t state[3], size_t i, uint32_t x, size_t allowance);
uint64_t tum_ring_remove_within(uint32_t *slots, size_t count, uint64_t state[3], size_t i, size_t allowance);
uint64_t tum_ring_truncate(uint32_t *slots, size_t count, uint64_t state[3], size_t k);
uint64_t tum_ring_resize(uint32_t *slots, size_t count, uint64_t state[3], size_t k, uint32_t x);
uint64_t tum_ring_clear(uint32_t *slots, size_t count, uint64_t state[3]);

uint64_t tum_vector_new(const uint32_t *slots, size_t count, uint64_t state[2]);
uint64_t tum_vector_with_capacity(const uint32_t *slots, size_t count, uint64_t state[2], size_t k);
uint64_t tum_vector_from_elem(uint32_t *slots, size_t count, uint64_t state[2], size_t k, uint32_t x);
uint64_t tum_vector_len(const uint32_t *slots, size_t count, const uint64_t state[2]);
uint64_t tum_vector_is_empty(const uint32_t *slots, size_t count, const uint64_t state[2]);
uint64_t tum_vector_read(const uint32_t *slots, size_t count, const uint64_t state[2], size_t i);
uint64_t tum_vector_reserve(const uint32_t *slots, size_t count, const uint64_t state[2], size_t k);
uint64_t tum_vector_try_reserve(const uint32_t *slots, size_t count, const uint64_t state[2], size_t k);
uint64_t tum_vector_try_reserve_exact(const uint32_t *slots, size_t count, const uint64_t state[2], size_t k);
uint64_t tum_vector_ask_range(const uint32_t *slots, size_t count, const uint64_t state[2], size_t a, size_t b);
uint64_t tum_vector_write(uint32_t *slots, size_t count, uint64_t state[2], size_t i, uint32_t x);
uint64_t tum_vector_push(uint32_t *slots, size_t count, uint64_t state[2], uint32_t x);
uint64_t tum_vector_pop(uint32_t *slots, size_t count, uint64_t state[2]);
uint64_t tum_vector_insert(uint32_t *slots, size_t count, uint64_t state[2], size_t i, uint32_t x);
uint64_t tum_vector_remove(uint32_t *slots, size_t count, uint64_t state[2], size_t i);
uint64_t tum_vector_swap_remove(uint32_t *slots, size_t count, uint64_t state[2], size_t i);
uint64_t tum_vector_truncate(uint32_t *slots, size_t count, uint64_t state[2], size_t k);
uint64_t tum_vector_resize(uint32_t *slots, size_t count, uint64_t state[2], size_t k, uint32_t x);
uint64_t tum_vector_clear(uint32_t *slots, size_t count, uint64_t state[2]);
uint64_t tum_vector_extend_from_slice(uint32_t *slots, size_t count, uint64_t state[2], const uint32_t *s, size_t s_count);

uint64_t tum_vector_range(const uint32_t *slots, size_t count, const uint64_t state[2], size_t a, size_t b);
uint64_t tum_vector_as_slice(const uint32_t *slots, size_t count, const uint64_t state[2]);
uint64_t tum_vector_as_ref(const uint32_t *slots, size_t count, const uint64_t state[2]);
uint64_t tum_vector_deref(const uint32_t *slots, size_t count, const uint64_t state[2]);
uint64_t tum_vector_as_mut_slice(const uint32_t *slots, size_t count, const uint64_t state[2]);
uint64_t tum_vector_deref_mut(const uint32_t *slots, size_t count, const uint64_t state[2]);

uint64_t tum_ring_append(uint32_t *slots, size_t count, uint64_t state[3], uint32_t *theirs, size_t room, uint64_t other[3]);
uint64_t tum_ring_split_off(uint32_t *slots, size_t count, uint64_t state[3], size_t i, uint32_t *theirs, size_t room, uint64_t other[3]);
uint64_t tum_ring_clone(const uint32_t *slots, size_t count, const uint64_t state[3], uint32_t *theirs, size_t room, uint64_t other[3]);
uint64_t tum_ring_same(const uint32_t *slots, size_t count, const uint64_t state[3], const uint32_t *theirs, size_t room, const uint64_t other[3]);
uint64_t tum_ring_same_as_vector(const uint32_t *slots, size_t count, const uint64_t state[3],
                                 const uint32_t *theirs, size_t room, const uint64_t other[2]);
uint64_t tum_vector_append(uint32_t *slots, size_t count, uint64_t state[2], uint32_t *theirs, size_t room, uint64_t other[2]);
uint64_t tum_vector_split_off(uint32_t *slots, size_t count, uint64_t state[2], size_t i, uint32_t *theirs, size_t room, uint64_t other[2]);
uint64_t tum_vector_clone(const uint32_t *slots, size_t count, const uint64_t state[2], uint32_t *theirs, size_t room, uint64_t other[2]);
uint64_t tum_vector_equal(const uint32_t *slots, size_t count, const uint64_t state[2], const uint32_t *theirs, size_t room, const uint64_t other[2]);

uint64_t tum_ring_iter(const uint32_t *slots, size_t count, const uint64_t state[3], size_t cursor[2]);
uint64_t tum_ring_into_iter(const uint32_t *slots, size_t count, const uint64_t state[3], size_t cursor[2]);
uint64_t tum_ring_step_front(const uint32_t *slots, size_t count, const uint64_t state[3], size_t cursor[2]);
uint64_t tum_ring_step_back(const uint32_t *slots, size_t count, const uint64_t state[3], size_t cursor[2]);
uint64_t tum_ring_peek_front(const uint32_t *slots, size_t count, const uint64_t state[3], const size_t cursor[2], size_t k);
uint64_t tum_ring_peek_back(const uint32_t *slots, size_t count, const uint64_t state[3], const size_t cursor[2], size_t k);
uint64_t tum_ring_from_iter(const uint32_t *slots, size_t count, const uint64_t state[3], size_t cursor[2],
                            uint32_t *theirs, size_t room, uint64_t other[2]);
uint64_t tum_vector_iter(const uint32_t *slots, size_t count, const uint64_t state[2], size_t cursor[2]);
uint64_t tum_vector_into_iter(const uint32_t *slots, size_t count, const uint64_t state[2], size_t cursor[2]);
uint64_t tum_vector_step_front(const uint32_t *slots, size_t count, const uint64_t state[2], size_t cursor[2]);
uint64_t tum_vector_step_back(const uint32_t *slots, size_t count, const uint64_t state[2], size_t cursor[2]);
uint64_t tum_vector_peek_front(const uint32_t *slots, size_t count, const uint64_t state[2], const size_t cursor[2], size_t k);
uint64_t tum_vector_peek_back(const uint32_t *slots, size_t count, const uint64_t state[2], const size_t cursor[2], size_t k);
uint64_t tum_vector_from_iter(const uint32_t *slots, size_t count, const uint64_t state[2], size_t cursor[2],
                              uint32_t *theirs, size_t room, uint64_t other[2]);

uint64_t tum_ring_text(const uint32_t *slots, size_t count, const uint64_t state[3], uint8_t *text, size_t room);
uint64_t tum_vector_text(const uint32_t *slots, size_t count, const uint64_t state[2], uint8_t *text, size_t room);
uint64_t tum_ring_text_read(uint32_t *slots, size_t count, uint64_t state[3], const uint8_t *text, size_t size);
uint64_t tum_vector_text_read(uint32_t *slots, size_t count, uint64_t state[2], const uint8_t *text, size_t size);
uint64_t tum_stored_check(const uint8_t *text, size_t size, uint64_t kind);

uint64_t tum_record_read(const uint8_t *text, size_t size, uint32_t *slots, size_t count, uint64_t state[2],
                         uint32_t *theirs, size_t room, uint64_t other[2]);
uint64_t tum_record_judge(const uint8_t *text, size_t size);
uint64_t tum_record_text(const uint8_t *text, size_t size, size_t start, size_t end, uint8_t *out, size_t room);

/* ---- Words taken apart, and what stands in a state ---- */

static inline tum_answer tum_answer_of(uint64_t word)
{
    tum_answer a;
    a.value = (uint32_t)(word & 0xffffffffu);
    a.slot = (uint16_t)(word >> 32 & 0xffffu);
    a.moves = (uint16_t)(word >> 48 & 0xfffu);
    a.number = (uint8_t)(word >> 60);
    return a;
}

static inline tum_part tum_part_of(uint64_t word)
{
    tum_part p;
    p.first = (size_t)(word & 0xffffffffu);
    p.count = (size_t)(word >> 32);
    return p;
}

/* These read a number of the state as the last call left it, and test nothing; tumring_len and tumvec_len are calls. */
static inline uint64_t tumring_head(const tum_ring *ring) { return ring->state[0]; }
static inline uint64_t tumring_length(const tum_ring *ring) { return ring->state[1]; }
static inline uint64_t tumvec_length(const tum_vector *v) { return v->state[0]; }

/* The total is what the entries add up to: a making starts it right, and each call changes it by what it puts in and takes out. What is written through
   a part, or straight into the slots, no total hears of: set it right yourself. */
static inline uint64_t tumring_total(const tum_ring *ring) { return ring->state[2]; }
static inline uint64_t tumvec_total(const tum_vector *v) { return v->state[1]; }

/* ---- The calls ----

   Each line says what the call does, the value if it has one, and after `Refused:` when it is refused, in the order in which that is tested. There c
   is the capacity of the container named first and n its length; c' and n' are those of t, the second container. A list's [..k] is its first k entries,
   [k..] the rest, and + joins two lists. Every call on a container is refused first with TUM_INVALID if that one is invalid, then with
   TUM_INVALID_SECOND if t is; the lines don't repeat it. */

/* Makings of a ring. The struct takes the slots and their number, whether refused or not. */

/* An empty ring on these slots; no slot changes. Refused: TUM_INVALID if there are more than 4,096 slots. */
static inline tum_answer tumring_new(tum_ring *ring, uint32_t *slots, size_t capacity)
{
    ring->slots = slots;
    ring->capacity = capacity;
    return tum_answer_of(tum_ring_new(slots, capacity, ring->state));
}

/* The same, and asks for k slots. Refused: the same; TUM_FULL if k > c. */
static inline tum_answer tumring_with_capacity(tum_ring *ring, uint32_t *slots, size_t capacity, size_t k)
{
    ring->slots = slots;
    ring->capacity = capacity;
    return tum_answer_of(tum_ring_with_capacity(slots, capacity, ring->state, k));
}

/* Calls that only look at a ring. */

/* The value is n. Refused: no more than every call. */
static inline tum_answer tumring_len(const tum_ring *ring)
{
    return tum_answer_of(tum_ring_len(ring->slots, ring->capacity, ring->state));
}

/* The value is entry i; reports its slot. Refused: TUM_NO_POSITION if i >= n. */
static inline tum_answer tumring_read(const tum_ring *ring, size_t i)
{
    return tum_answer_of(tum_ring_read(ring->slots, ring->capacity, ring->state, i));
}

/* Asks for k free slots. Refused: TUM_FULL if c - n < k. */
static inline tum_answer tumring_reserve(const tum_ring *ring, size_t k)
{
    return tum_answer_of(tum_ring_reserve(ring->slots, ring->capacity, ring->state, k));
}

/* Calls that change a ring. An entry that goes in or is written is reported where it stands afterwards, one that is taken out where it stood. */

/* Puts x at i; the value is the entry that stood there. Refused: TUM_NO_POSITION if i >= n. */
static inline tum_answer tumring_write(tum_ring *ring, size_t i, uint32_t x)
{
    return tum_answer_of(tum_ring_write(ring->slots, ring->capacity, ring->state, i, x));
}

/* The list + x. Refused: TUM_FULL if n = c. */
static inline tum_answer tumring_push_back(tum_ring *ring, uint32_t x)
{
    return tum_answer_of(tum_ring_push_back(ring->slots, ring->capacity, ring->state, x));
}

/* x + the list. Refused: TUM_FULL if n = c. */
static inline tum_answer tumring_push_front(tum_ring *ring, uint32_t x)
{
    return tum_answer_of(tum_ring_push_front(ring->slots, ring->capacity, ring->state, x));
}

/* Takes the last entry out, which is the value. Refused: TUM_EMPTY if n = 0. */
static inline tum_answer tumring_pop_back(tum_ring *ring)
{
    return tum_answer_of(tum_ring_pop_back(ring->slots, ring->capacity, ring->state));
}

/* Takes the first entry out, which is the value. Refused: TUM_EMPTY if n = 0. */
static inline tum_answer tumring_pop_front(tum_ring *ring)
{
    return tum_answer_of(tum_ring_pop_front(ring->slots, ring->capacity, ring->state));
}

/* [..i] + x + [i..]; the shorter side shifts. Refused: TUM_NO_POSITION if i > n; TUM_FULL if n = c. */
static inline tum_answer tumring_insert(tum_ring *ring, size_t i, uint32_t x)
{
    return tum_answer_of(tum_ring_insert(ring->slots, ring->capacity, ring->state, i, x));
}

/* Takes entry i out, which is the value; the shorter side shifts. Refused: TUM_NO_POSITION if i >= n. */
static inline tum_answer tumring_remove(tum_ring *ring, size_t i)
{
    return tum_answer_of(tum_ring_remove(ring->slots, ring->capacity, ring->state, i));
}

/* tumring_insert with at most so many moves. Refused: as tumring_insert; TUM_OVER_ALLOWANCE if the shorter side is longer than the allowance. */
static inline tum_answer tumring_insert_within(tum_ring *ring, size_t i, uint32_t x, size_t allowance)
{
    return tum_answer_of(tum_ring_insert_within(ring->slots, ring->capacity, ring->state, i, x, allowance));
}

/* tumring_remove with at most so many moves. Refused: as tumring_remove; TUM_OVER_ALLOWANCE if the shorter side is longer than the allowance. */
static inline tum_answer tumring_remove_within(tum_ring *ring, size_t i, size_t allowance)
{
    return tum_answer_of(tum_ring_remove_within(ring->slots, ring->capacity, ring->state, i, allowance));
}

/* [..k]; where k >= n the list stays. Refused: no more than every call. */
static inline tum_answer tumring_truncate(tum_ring *ring, size_t k)
{
    return tum_answer_of(tum_ring_truncate(ring->slots, ring->capacity, ring->state, k));
}

/* [..k]; where k > n the list + (k - n) times x. Refused: TUM_FULL if k > c. */
static inline tum_answer tumring_resize(tum_ring *ring, size_t k, uint32_t x)
{
    return tum_answer_of(tum_ring_resize(ring->slots, ring->capacity, ring->state, k, x));
}

/* Leaves nothing in it; the entries are taken off the total, which is not set to 0. Refused: no more than every call. */
static inline tum_answer tumring_clear(tum_ring *ring)
{
    return tum_answer_of(tum_ring_clear(ring->slots, ring->capacity, ring->state));
}

/* Makings of a vector, as those of a ring. */

/* An empty vector on these slots; no slot changes. Refused: TUM_INVALID if there are more than 4,096 slots. */
static inline tum_answer tumvec_new(tum_vector *v, uint32_t *slots, size_t capacity)
{
    v->slots = slots;
    v->capacity = capacity;
    return tum_answer_of(tum_vector_new(slots, capacity, v->state));
}

/* The same, and asks for k slots. Refused: the same; TUM_FULL if k > c. */
static inline tum_answer tumvec_with_capacity(tum_vector *v, uint32_t *slots, size_t capacity, size_t k)
{
    v->slots = slots;
    v->capacity = capacity;
    return tum_answer_of(tum_vector_with_capacity(slots, capacity, v->state, k));
}

/* k times x, in slots 0 to k - 1; the other slots keep what they held. Refused: the same; TUM_FULL if k > c. */
static inline tum_answer tumvec_from_elem(tum_vector *v, uint32_t *slots, size_t capacity, size_t k, uint32_t x)
{
    v->slots = slots;
    v->capacity = capacity;
    return tum_answer_of(tum_vector_from_elem(slots, capacity, v->state, k, x));
}

/* Calls that only look at a vector. */

/* The value is n. Refused: no more than every call. */
static inline tum_answer tumvec_len(const tum_vector *v)
{
    return tum_answer_of(tum_vector_len(v->slots, v->capacity, v->state));
}

/* The value is 1 if n = 0, else 0. Refused: no more than every call. */
static inline tum_answer tumvec_is_empty(const tum_vector *v)
{
    return tum_answer_of(tum_vector_is_empty(v->slots, v->capacity, v->state));
}

/* The value is entry i; reports its slot. Refused: TUM_NO_POSITION if i >= n. */
static inline tum_answer tumvec_read(const tum_vector *v, size_t i)
{
    return tum_answer_of(tum_vector_read(v->slots, v->capacity, v->state, i));
}

/* Asks for k free slots. Refused: TUM_FULL if c - n < k. */
static inline tum_answer tumvec_reserve(const tum_vector *v, size_t k)
{
    return tum_answer_of(tum_vector_reserve(v->slots, v->capacity, v->state, k));
}

/* tumvec_reserve by another name. */
static inline tum_answer tumvec_try_reserve(const tum_vector *v, size_t k)
{
    return tum_answer_of(tum_vector_try_reserve(v->slots, v->capacity, v->state, k));
}

/* tumvec_reserve by another name. */
static inline tum_answer tumvec_try_reserve_exact(const tum_vector *v, size_t k)
{
    return tum_answer_of(tum_vector_try_reserve_exact(v->slots, v->capacity, v->state, k));
}

/* Says whether tumvec_range lends the part asked for. Refused: TUM_NO_POSITION without a <= b <= n. */
static inline tum_answer tumvec_ask_range(const tum_vector *v, size_t a, size_t b)
{
    return tum_answer_of(tum_vector_ask_range(v->slots, v->capacity, v->state, a, b));
}

/* Calls that change a vector. What they report is as for a ring. */

/* Puts x at i; the value is the entry that stood there. Refused: TUM_NO_POSITION if i >= n. */
static inline tum_answer tumvec_write(tum_vector *v, size_t i, uint32_t x)
{
    return tum_answer_of(tum_vector_write(v->slots, v->capacity, v->state, i, x));
}

/* The list + x. Refused: TUM_FULL if n = c. */
static inline tum_answer tumvec_push(tum_vector *v, uint32_t x)
{
    return tum_answer_of(tum_vector_push(v->slots, v->capacity, v->state, x));
}

/* Takes the last entry out, which is the value. Refused: TUM_EMPTY if n = 0. */
static inline tum_answer tumvec_pop(tum_vector *v)
{
    return tum_answer_of(tum_vector_pop(v->slots, v->capacity, v->state));
}

/* [..i] + x + [i..]. Refused: TUM_NO_POSITION if i > n; TUM_FULL if n = c. */
static inline tum_answer tumvec_insert(tum_vector *v, size_t i, uint32_t x)
{
    return tum_answer_of(tum_vector_insert(v->slots, v->capacity, v->state, i, x));
}

/* Takes entry i out, which is the value. Refused: TUM_NO_POSITION if i >= n. */
static inline tum_answer tumvec_remove(tum_vector *v, size_t i)
{
    return tum_answer_of(tum_vector_remove(v->slots, v->capacity, v->state, i));
}

/* Takes entry i out, which is the value, and the last entry takes its place. Refused: TUM_NO_POSITION if i >= n. */
static inline tum_answer tumvec_swap_remove(tum_vector *v, size_t i)
{
    return tum_answer_of(tum_vector_swap_remove(v->slots, v->capacity, v->state, i));
}

/* [..k]; where k >= n the list stays. Refused: no more than every call. */
static inline tum_answer tumvec_truncate(tum_vector *v, size_t k)
{
    return tum_answer_of(tum_vector_truncate(v->slots, v->capacity, v->state, k));
}

/* [..k]; where k > n the list + (k - n) times x. Refused: TUM_FULL if k > c. */
static inline tum_answer tumvec_resize(tum_vector *v, size_t k, uint32_t x)
{
    return tum_answer_of(tum_vector_resize(v->slots, v->capacity, v->state, k, x));
}

/* Leaves nothing in it; the entries are taken off the total, which is not set to 0. Refused: no more than every call. */
static inline tum_answer tumvec_clear(tum_vector *v)
{
    return tum_answer_of(tum_vector_clear(v->slots, v->capacity, v->state));
}

/* The list + the s_count numbers at s. Refused: TUM_FULL if c - n < s_count. */
static inline tum_answer tumvec_extend_from_slice(tum_vector *v, const uint32_t *s, size_t s_count)
{
    return tum_answer_of(tum_vector_extend_from_slice(v->slots, v->capacity, v->state, s, s_count));
}

/* Parts that a vector lends. A part bears no number: where the state is invalid, or there is no such range, it is the empty part at slot 0, and
   tumvec_ask_range says why. It is good until the next call that changes the vector. */

/* The positions from a up to b, b not among them. Empty without a <= b <= n. */
static inline tum_part tumvec_range(const tum_vector *v, size_t a, size_t b)
{
    return tum_part_of(tum_vector_range(v->slots, v->capacity, v->state, a, b));
}

/* All entries. */
static inline tum_part tumvec_as_slice(const tum_vector *v)
{
    return tum_part_of(tum_vector_as_slice(v->slots, v->capacity, v->state));
}

/* tumvec_as_slice by another name. */
static inline tum_part tumvec_as_ref(const tum_vector *v)
{
    return tum_part_of(tum_vector_as_ref(v->slots, v->capacity, v->state));
}

/* tumvec_as_slice by another name. */
static inline tum_part tumvec_deref(const tum_vector *v)
{
    return tum_part_of(tum_vector_deref(v->slots, v->capacity, v->state));
}

/* All entries, for writing; the total stays as it is, whatever is written. */
static inline tum_part tumvec_as_mut_slice(tum_vector *v)
{
    return tum_part_of(tum_vector_as_mut_slice(v->slots, v->capacity, v->state));
}

/* tumvec_as_mut_slice by another name. */
static inline tum_part tumvec_deref_mut(tum_vector *v)
{
    return tum_part_of(tum_vector_deref_mut(v->slots, v->capacity, v->state));
}

/* Calls on two containers, the one named first and t. None reports a slot; each total changes by what its own container gets and gives. */

/* The list + t's; t is empty then. Refused: TUM_FULL if c - n < n'. */
static inline tum_answer tumring_append(tum_ring *ring, tum_ring *t)
{
    return tum_answer_of(tum_ring_append(ring->slots, ring->capacity, ring->state, t->slots, t->capacity, t->state));
}

/* Keeps [..i], and t gets [i..]. Refused: TUM_NO_POSITION if i > n; TUM_NOT_EMPTY if n' > 0; TUM_FULL if c' < n - i. */
static inline tum_answer tumring_split_off(tum_ring *ring, size_t i, tum_ring *t)
{
    return tum_answer_of(tum_ring_split_off(ring->slots, ring->capacity, ring->state, i, t->slots, t->capacity, t->state));
}

/* t gets a copy of the list. Refused: TUM_NOT_EMPTY if n' > 0; TUM_FULL if c' < n. */
static inline tum_answer tumring_clone(const tum_ring *ring, tum_ring *t)
{
    return tum_answer_of(tum_ring_clone(ring->slots, ring->capacity, ring->state, t->slots, t->capacity, t->state));
}

/* The value is 1 if the two lists are equal, wherever they stand, else 0. Refused: no more than every call. */
static inline tum_answer tumring_same(const tum_ring *ring, const tum_ring *t)
{
    return tum_answer_of(tum_ring_same(ring->slots, ring->capacity, ring->state, t->slots, t->capacity, t->state));
}

/* The same of a ring and a vector. Refused: no more than every call. */
static inline tum_answer tumring_same_as_vector(const tum_ring *ring, const tum_vector *t)
{
    return tum_answer_of(tum_ring_same_as_vector(ring->slots, ring->capacity, ring->state, t->slots, t->capacity, t->state));
}

/* The list + t's; t is empty then. Refused: TUM_FULL if c - n < n'. */
static inline tum_answer tumvec_append(tum_vector *v, tum_vector *t)
{
    return tum_answer_of(tum_vector_append(v->slots, v->capacity, v->state, t->slots, t->capacity, t->state));
}

/* Keeps [..i], and t gets [i..]. Refused: TUM_NO_POSITION if i > n; TUM_NOT_EMPTY if n' > 0; TUM_FULL if c' < n - i. */
static inline tum_answer tumvec_split_off(tum_vector *v, size_t i, tum_vector *t)
{
    return tum_answer_of(tum_vector_split_off(v->slots, v->capacity, v->state, i, t->slots, t->capacity, t->state));
}

/* t gets a copy of the list. Refused: TUM_NOT_EMPTY if n' > 0; TUM_FULL if c' < n. */
static inline tum_answer tumvec_clone(const tum_vector *v, tum_vector *t)
{
    return tum_answer_of(tum_vector_clone(v->slots, v->capacity, v->state, t->slots, t->capacity, t->state));
}

/* The value is 1 if the two lists are equal, else 0. Refused: no more than every call. */
static inline tum_answer tumvec_equal(const tum_vector *v, const tum_vector *t)
{
    return tum_answer_of(tum_vector_equal(v->slots, v->capacity, v->state, t->slots, t->capacity, t->state));
}

/* A cursor over a ring. The container stays, and no slot is reported. */

/* The cursor over all positions: front 0, back n. Refused: no more than every call; the cursor is 0, 0 then. */
static inline tum_answer tumring_iter(const tum_ring *ring, tum_cursor *cursor)
{
    return tum_answer_of(tum_ring_iter(ring->slots, ring->capacity, ring->state, cursor->at));
}

/* tumring_iter by another name. */
static inline tum_answer tumring_into_iter(const tum_ring *ring, tum_cursor *cursor)
{
    return tum_answer_of(tum_ring_into_iter(ring->slots, ring->capacity, ring->state, cursor->at));
}

/* The value is entry front, and front goes on by 1. Refused: TUM_NO_POSITION without front <= back <= n; TUM_EMPTY if front = back. */
static inline tum_answer tumring_step_front(const tum_ring *ring, tum_cursor *cursor)
{
    return tum_answer_of(tum_ring_step_front(ring->slots, ring->capacity, ring->state, cursor->at));
}

/* The value is entry back - 1, and back goes back by 1. Refused: as tumring_step_front. */
static inline tum_answer tumring_step_back(const tum_ring *ring, tum_cursor *cursor)
{
    return tum_answer_of(tum_ring_step_back(ring->slots, ring->capacity, ring->state, cursor->at));
}

/* The value is entry front + k; the cursor stays. Refused: TUM_NO_POSITION without front <= back <= n, or if k >= back - front. */
static inline tum_answer tumring_peek_front(const tum_ring *ring, const tum_cursor *cursor, size_t k)
{
    return tum_answer_of(tum_ring_peek_front(ring->slots, ring->capacity, ring->state, cursor->at, k));
}

/* The value is entry back - 1 - k; the cursor stays. Refused: as tumring_peek_front. */
static inline tum_answer tumring_peek_back(const tum_ring *ring, const tum_cursor *cursor, size_t k)
{
    return tum_answer_of(tum_ring_peek_back(ring->slots, ring->capacity, ring->state, cursor->at, k));
}

/* Fills t, a vector, with what remains; front is at back then. Refused: TUM_NO_POSITION without front <= back <= n; TUM_NOT_EMPTY if n' > 0;
   TUM_FULL if c' < back - front. */
static inline tum_answer tumring_from_iter(const tum_ring *ring, tum_cursor *cursor, tum_vector *t)
{
    return tum_answer_of(tum_ring_from_iter(ring->slots, ring->capacity, ring->state, cursor->at, t->slots, t->capacity, t->state));
}

/* A cursor over a vector: each call as over a ring, and refused as there. */

/* The cursor over all positions: front 0, back n. */
static inline tum_answer tumvec_iter(const tum_vector *v, tum_cursor *cursor)
{
    return tum_answer_of(tum_vector_iter(v->slots, v->capacity, v->state, cursor->at));
}

/* tumvec_iter by another name. */
static inline tum_answer tumvec_into_iter(const tum_vector *v, tum_cursor *cursor)
{
    return tum_answer_of(tum_vector_into_iter(v->slots, v->capacity, v->state, cursor->at));
}

/* The value is entry front, and front goes on by 1. */
static inline tum_answer tumvec_step_front(const tum_vector *v, tum_cursor *cursor)
{
    return tum_answer_of(tum_vector_step_front(v->slots, v->capacity, v->state, cursor->at));
}

/* The value is entry back - 1, and back goes back by 1. */
static inline tum_answer tumvec_step_back(const tum_vector *v, tum_cursor *cursor)
{
    return tum_answer_of(tum_vector_step_back(v->slots, v->capacity, v->state, cursor->at));
}

/* The value is entry front + k; the cursor stays. */
static inline tum_answer tumvec_peek_front(const tum_vector *v, const tum_cursor *cursor, size_t k)
{
    return tum_answer_of(tum_vector_peek_front(v->slots, v->capacity, v->state, cursor->at, k));
}

/* The value is entry back - 1 - k; the cursor stays. */
static inline tum_answer tumvec_peek_back(const tum_vector *v, const tum_cursor *cursor, size_t k)
{
    return tum_answer_of(tum_vector_peek_back(v->slots, v->capacity, v->state, cursor->at, k));
}

/* Fills t with what remains; front is at back then. */
static inline tum_answer tumvec_from_iter(const tum_vector *v, tum_cursor *cursor, tum_vector *t)
{
    return tum_answer_of(tum_vector_from_iter(v->slots, v->capacity, v->state, cursor->at, t->slots, t->capacity, t->state));
}

/* The stored form: a container as text, TUM_TEXT_BYTES(c) bytes, with no 0 behind them. The value is how many; bytes after them stay. */

/* Writes the ring to the start of the text. Refused: TUM_FULL if room is less than TUM_TEXT_BYTES(c). */
static inline tum_answer tumring_text(const tum_ring *ring, uint8_t *text, size_t room)
{
    return tum_answer_of(tum_ring_text(ring->slots, ring->capacity, ring->state, text, room));
}

/* Writes the vector to the start of the text. Refused: the same. */
static inline tum_answer tumvec_text(const tum_vector *v, uint8_t *text, size_t room)
{
    return tum_answer_of(tum_vector_text(v->slots, v->capacity, v->state, text, room));
}

/* A stored text read back: makings, so the struct takes the slots and their number, whether refused or not. Lend exactly as many slots as the container
   had that was stored; its text has TUM_TEXT_BYTES(c) bytes. A text is acceptable for a kind if it is, byte for byte, what one of the two calls above
   writes for some valid container of that kind. So is an older one, of an empty ring with another head below c: it is read as head 0. Nothing is
   stored before the whole text is judged. But a digit that was damaged into another digit may well be acceptable: a text bears no check sum. */

/* 1 if the text is acceptable for a kind, TUM_KIND_RING or TUM_KIND_VECTOR; else 0, and for any other kind. It has no number: nothing is refused. */
static inline int tumstored_check(const uint8_t *text, size_t size, uint64_t kind)
{
    return tum_stored_check(text, size, kind) == 1;
}

/* The ring of the text: every slot as it has it, free ones too, and the total worked out. Refused: TUM_INVALID if there are more than 4,096 slots;
   TUM_NOT_ACCEPTABLE if the text is not acceptable for a ring; TUM_FULL if there are not exactly as many slots as it has. No slot changes then. */
static inline tum_answer tumring_text_read(tum_ring *ring, uint32_t *slots, size_t capacity, const uint8_t *text, size_t size)
{
    ring->slots = slots;
    ring->capacity = capacity;
    return tum_answer_of(tum_ring_text_read(slots, capacity, ring->state, text, size));
}

/* The vector of the text, in the same way. Refused: the same. */
static inline tum_answer tumvec_text_read(tum_vector *v, uint32_t *slots, size_t capacity, const uint8_t *text, size_t size)
{
    v->slots = slots;
    v->capacity = capacity;
    return tum_answer_of(tum_vector_text_read(slots, capacity, v->state, text, size));
}

/* A record of comma-separated text, at the start of a text of at most 65,535 bytes. Places in it are counted in bytes, from 0; a field goes from its
   start up to its end, the byte at its end not among them. Refusals have an order of their own, the one in which they stand here. */

/* Puts the fields' starts on one empty vector and their ends on the other; the value is where the next record starts. Refused: TUM_INVALID if starts is
   invalid, TUM_INVALID_SECOND if ends is; TUM_NOT_EMPTY if either is not empty; TUM_LONG_TEXT; TUM_STRAY_BYTE or TUM_OPEN_QUOTE, whichever is met
   first; TUM_FULL if either has fewer slots than the record has fields. */
static inline tum_answer tumrecord_read(const uint8_t *text, size_t size, tum_vector *starts, tum_vector *ends)
{
    return tum_answer_of(tum_record_read(text, size, starts->slots, starts->capacity, starts->state, ends->slots, ends->capacity, ends->state));
}

/* Only looks: the value is where the next record starts, refused with 9 or 10 the place of the fault. Refused: TUM_LONG_TEXT; TUM_STRAY_BYTE or
   TUM_OPEN_QUOTE, whichever is met first. */
static inline tum_answer tumrecord_judge(const uint8_t *text, size_t size)
{
    return tum_answer_of(tum_record_judge(text, size));
}

/* Writes the bytes from start to end to the start of out, with doubled quotes undone; the value is how many it wrote. Refused: TUM_LONG_TEXT;
   TUM_NO_POSITION without start <= end <= size; TUM_FULL if out is too short. */
static inline tum_answer tumrecord_text(const uint8_t *text, size_t size, size_t start, size_t end, uint8_t *out, size_t room)
{
    return tum_answer_of(tum_record_text(text, size, start, end, out, room));
}

#ifdef __cplusplus
}
#endif

#endif
