/* A worklist and a pick list, as the firmware of a plate handler would keep them: no heap, only the slots below. An entry is the volume that a plate
   still needs, in nanolitres, so the total that the display shows is what is left to dispense. `make firmware` builds and runs it. */
#include "tumbrelice.h"

#include <stdio.h>

enum { TRAY = 4, PICKS = 6, TICK = 1 /* plate moves that the stage has time for in a tick */ };

static uint32_t tray[TRAY], picked[PICKS]; /* the slots, which stay where they are as long as the lists are used */
static tum_ring worklist;
static tum_vector picks;
static uint8_t text[TUM_TEXT_BYTES(PICKS)]; /* room for either list in its stored form */

static const char *name_of(uint8_t number)
{
    switch (number) {
    case TUM_DONE: return "TUM_DONE";
    case TUM_INVALID: return "TUM_INVALID";
    case TUM_NO_POSITION: return "TUM_NO_POSITION";
    case TUM_EMPTY: return "TUM_EMPTY";
    case TUM_NOT_EMPTY: return "TUM_NOT_EMPTY";
    case TUM_FULL: return "TUM_FULL";
    case TUM_OVER_ALLOWANCE: return "TUM_OVER_ALLOWANCE";
    case TUM_NOT_ACCEPTABLE: return "TUM_NOT_ACCEPTABLE";
    default: return "another number";
    }
}

/* What the operator sees: the answer, the lamp at the slot that it reports, and the total. */
static void show(const char *call, tum_answer a, uint64_t total)
{
    printf("%-20s%-18s%6lu%6u", call, name_of(a.number), (unsigned long)a.value, (unsigned)a.moves);
    if (a.slot == TUM_NO_SLOT)
        printf("     -");
    else
        printf("%6u", (unsigned)a.slot);
    printf("%7lu\n", (unsigned long)total);
}

/* The total is a number of the state: it is read after the call, and nothing is added up for it. */
static void show_worklist(const char *call, tum_answer a) { show(call, a, tumring_total(&worklist)); }
static void show_picks(const char *call, tum_answer a) { show(call, a, tumvec_total(&picks)); }

/* Plates return at either end, one goes in between, and one finds the tray full. */
static void fill_worklist(void)
{
    tum_answer a;
    puts("the worklist        answer             value moves  lamp  total");
    show_worklist("new", tumring_new(&worklist, tray, TRAY));
    show_worklist("push_back 250", tumring_push_back(&worklist, 250));
    show_worklist("push_back 100", tumring_push_back(&worklist, 100));
    show_worklist("push_front 75", tumring_push_front(&worklist, 75));
    show_worklist("insert 1, 40", tumring_insert(&worklist, 1, 40));
    a = tumring_push_back(&worklist, 60);
    show_worklist("push_back 60", a);
    if (a.number == TUM_FULL) { /* the refused call changed nothing: once a plate is out, it is made again */
        show_worklist("pop_front", tumring_pop_front(&worklist));
        show_worklist("push_back 60", tumring_push_back(&worklist, 60));
    }
}

/* All plates but the first are picked, and one more. A cursor walks over the worklist and leaves it as it is. */
static void pick(void)
{
    tum_cursor cursor;
    show_worklist("iter", tumring_iter(&worklist, &cursor));
    show_worklist("step_front", tumring_step_front(&worklist, &cursor));
    puts("\nthe pick list       answer             value moves  lamp  total");
    show_picks("new", tumvec_new(&picks, picked, PICKS));
    show_picks("from_iter", tumring_from_iter(&worklist, &cursor, &picks));
    show_picks("push 25", tumvec_push(&picks, 25));
}

/* A part bears no number: whether there is such a range is asked apart. */
static void look_at(size_t from, size_t to)
{
    tum_answer a = tumvec_ask_range(&picks, from, to);
    tum_part part = tumvec_range(&picks, from, to);
    size_t k;
    printf("\npositions %lu up to %lu: %s,", (unsigned long)from, (unsigned long)to, name_of(a.number));
    for (k = 0; k < part.count; k++)
        printf(" %lu", (unsigned long)picks.slots[part.first + k]);
    printf("%s", part.count == 0 ? " nothing" : "");
}

/* The stored form has no 0 at its end: the value says how many bytes there are. */
static void print_stored(const char *what, tum_answer a)
{
    printf("\n%s, stored: %s, %lu bytes\n", what, name_of(a.number), (unsigned long)a.value);
    fwrite(text, 1, a.value, stdout);
}

/* A tick's calls share its moves. One that is over what is left changed nothing, and is made again in the next tick; at an end of the list nothing
   moves, so there is always time for that. */
static void work_in_ticks(void)
{
    size_t left = TICK;
    tum_answer a;
    puts("\nthis tick           answer             value moves  lamp  total");
    a = tumring_remove_within(&worklist, 1, left);
    show_worklist("remove_within 1", a);
    left -= a.moves;
    a = tumring_insert_within(&worklist, 1, 80, left);
    show_worklist("insert_within 1, 80", a);
    if (a.number == TUM_OVER_ALLOWANCE) {
        left = TICK;
        puts("\nthe next tick       answer             value moves  lamp  total");
        a = tumring_insert_within(&worklist, 1, 80, left);
        show_worklist("insert_within 1, 80", a);
        left -= a.moves;
    }
    show_worklist("remove_within 0", tumring_remove_within(&worklist, 0, left));
}

/* The check only looks, so it can be asked before there are slots to lend; the reading comes to the same. */
static void read_back(size_t size)
{
    int yes = tumstored_check(text, size, TUM_KIND_RING);
    printf("\nthe stored text, %lu bytes: %s\n", (unsigned long)size, yes ? "acceptable for a ring" : "not acceptable for a ring");
    puts("read back           answer             value moves  lamp  total");
    show_worklist("text_read", tumring_text_read(&worklist, tray, TRAY, text, size));
}

/* The worklist is stored before the power goes. After the restart the slots hold anything, and all there is of it is the text; the total is not in it
   and is worked out. Then one bit of the text is damaged: the refused reading leaves an empty worklist, and the slots as they were. */
static void restart(void)
{
    size_t size = tumring_text(&worklist, text, sizeof text).value, k;
    for (k = 0; k < TRAY; k++)
        tray[k] = 0xffffffffu;
    read_back(size);
    show_worklist("push_front 35", tumring_push_front(&worklist, 35));
    show_worklist("pop_back", tumring_pop_back(&worklist));
    text[30] ^= 0x40;
    read_back(size);
    show_worklist("len", tumring_len(&worklist));
    printf("in the slots:");
    for (k = 0; k < TRAY; k++)
        printf(" %lu", (unsigned long)tray[k]);
    puts("");
}

int main(void)
{
    fill_worklist();
    pick();
    look_at(1, 3);
    look_at(2, 9);
    puts("");
    print_stored("the worklist", tumring_text(&worklist, text, sizeof text));
    print_stored("the pick list", tumvec_text(&picks, text, sizeof text));
    work_in_ticks();
    restart();
    return 0;
}
