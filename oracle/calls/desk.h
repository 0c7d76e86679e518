/* What the parts of this program share; main.c says what it is for. */
#ifndef CALLS_DESK_H
#define CALLS_DESK_H

#include "tumbrelice.h"

enum { MOST = 4200, TEXT = 40000, BEHIND = 2 /* slots and bytes behind those that are lent */, CALLS = 6 /* the most on one desk */ };

/* A container as replay has it on its desk: a ring, or a vector if a call takes it for one, which leaves head 0. */
typedef struct side {
    uint32_t slots[MOST + BEHIND];
    size_t capacity;
    uint64_t head, length, total;
} side;

/* desk.c: what stands on the desk, the lines that say so, and chance, which a seed that is not 0 begins */
extern side first, second;
extern tum_cursor cursor;
extern uint64_t chance;
uint64_t draw(void);
uint64_t below(uint64_t n);
uint64_t wide(void);
uint32_t entry(void);
size_t some_capacity(void);
void some_side(side *s, size_t capacity, int empty);
void place(size_t capacity);
void place_cursor(void);
void line(unsigned code, uint64_t a, uint64_t b);
void look_behind(const side *s);
extern int silent; /* whether lines are kept only, and not written */
void fail(const char *what);

/* made.c: a call by replay's number, through its inline function; what a part or a text then is */
tum_ring ring_of(side *s);
tum_vector vector_of(side *s);
void vector_left(side *s, const tum_vector *v);
tum_answer call(unsigned code, size_t a, size_t b);
extern uint8_t text[TEXT + BEHIND]; /* the text on the desk */
extern size_t text_size;
extern uint32_t lent[MOST]; /* the entries of the last part, as it was lent */
extern size_t lent_count;
extern uint8_t lent_number; /* what ask_range answers for it */

/* texts.c: a stored text on the desk, acceptable for this kind or not */
void place_text(uint64_t kind);

/* beside.c: what replay can't show */
enum { RECORD_KINDS = 3 };
extern const char *const record_names[RECORD_KINDS];
extern unsigned long record_met[RECORD_KINDS][2]; /* done, refused */
void records(uint64_t count);
void names(void);
void largest(void);

#endif
