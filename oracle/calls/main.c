/* Random calls through include/tumbrelice.h, from any states, held against the program replay (docs/REPLAY.md), which makes the same calls without
   the header and the archive. oracle/calls-run builds it and runs both.

     calls write SEED COUNT      writes the lines that place the states and make the calls, for replay
     calls compare SEED COUNT    makes the same calls once more, and compares all that each leaves with what replay printed, which comes in

   What replay can't show is looked at here alone: slots and bytes behind those that were lent, where an empty part begins, and what beside.c has. */
#include "desk.h"

#include <inttypes.h>
#include <stdio.h>
#include <stdlib.h>
#include <string.h>

enum { LARGE = 230 /* one call in so many is made on a large desk of its own, each kind in turn */, ON_RECORD = 20 /* one text in so many calls */ };

/* The numbers of a call: a position, one from the cursor on, a number of slots, an entry, two of these, a range, how many of the second's slots, how
   many bytes, none but a text on the desk, or that and a kind. The allowance of 90 and 91 stands in the cursor. */
typedef enum needs { NOTHING, POSITION, AHEAD, COUNT, ENTRY, POSITION_ENTRY, COUNT_ENTRY, RANGE, SLICE, BYTES, STORED, STORED_KIND } needs;

typedef struct kind {
    unsigned code; /* replay's */
    const char *name;
    needs needs;
} kind;

static const kind kinds[] = {
    {0x10, "tumring_new", NOTHING}, {0x11, "tumring_with_capacity", COUNT}, {0x12, "tumring_len", NOTHING}, {0x13, "tumring_read", POSITION},
    {0x14, "tumring_reserve", COUNT}, {0x15, "tumring_write", POSITION_ENTRY}, {0x16, "tumring_push_back", ENTRY},
    {0x17, "tumring_push_front", ENTRY}, {0x18, "tumring_pop_back", NOTHING}, {0x19, "tumring_pop_front", NOTHING},
    {0x1a, "tumring_insert", POSITION_ENTRY}, {0x1b, "tumring_remove", POSITION}, {0x1c, "tumring_truncate", COUNT},
    {0x1d, "tumring_resize", COUNT_ENTRY}, {0x1e, "tumring_clear", NOTHING}, {0x20, "tumvec_new", NOTHING}, {0x21, "tumvec_with_capacity", COUNT},
    {0x22, "tumvec_len", NOTHING}, {0x23, "tumvec_read", POSITION}, {0x24, "tumvec_reserve", COUNT}, {0x25, "tumvec_write", POSITION_ENTRY},
    {0x26, "tumvec_push", ENTRY}, {0x27, "tumvec_pop", NOTHING}, {0x28, "tumvec_from_elem", COUNT_ENTRY}, {0x29, "tumvec_swap_remove", POSITION},
    {0x2a, "tumvec_insert", POSITION_ENTRY}, {0x2b, "tumvec_remove", POSITION}, {0x2c, "tumvec_truncate", COUNT},
    {0x2d, "tumvec_resize", COUNT_ENTRY}, {0x2e, "tumvec_clear", NOTHING}, {0x2f, "tumvec_extend_from_slice", SLICE},
    {0x30, "tumvec_is_empty", NOTHING}, {0x31, "tumvec_try_reserve", COUNT}, {0x32, "tumvec_try_reserve_exact", COUNT},
    {0x33, "tumvec_ask_range", RANGE}, {0x38, "tumvec_range", RANGE}, {0x39, "tumvec_as_slice", NOTHING}, {0x3a, "tumvec_as_ref", NOTHING},
    {0x3b, "tumvec_deref", NOTHING}, {0x3c, "tumvec_as_mut_slice", POSITION_ENTRY}, {0x3d, "tumvec_deref_mut", POSITION_ENTRY},
    {0x40, "tumring_append", NOTHING}, {0x41, "tumring_split_off", POSITION}, {0x42, "tumring_clone", NOTHING}, {0x43, "tumring_same", NOTHING},
    {0x44, "tumring_same_as_vector", NOTHING}, {0x50, "tumvec_append", NOTHING}, {0x51, "tumvec_split_off", POSITION},
    {0x52, "tumvec_clone", NOTHING}, {0x53, "tumvec_equal", NOTHING}, {0x60, "tumring_iter", NOTHING}, {0x61, "tumring_into_iter", NOTHING},
    {0x62, "tumring_step_front", NOTHING}, {0x63, "tumring_step_back", NOTHING}, {0x64, "tumring_peek_front", AHEAD},
    {0x65, "tumring_peek_back", AHEAD}, {0x66, "tumring_from_iter", NOTHING}, {0x70, "tumvec_iter", NOTHING}, {0x71, "tumvec_into_iter", NOTHING},
    {0x72, "tumvec_step_front", NOTHING}, {0x73, "tumvec_step_back", NOTHING}, {0x74, "tumvec_peek_front", AHEAD},
    {0x75, "tumvec_peek_back", AHEAD}, {0x76, "tumvec_from_iter", NOTHING}, {0x80, "tumring_text", BYTES}, {0x81, "tumvec_text", BYTES},
    {0x82, "tumring_text_read", STORED}, {0x83, "tumvec_text_read", STORED}, {0x84, "tumstored_check", STORED_KIND},
    {0x90, "tumring_insert_within", POSITION_ENTRY}, {0x91, "tumring_remove_within", POSITION},
};
enum { KINDS = sizeof kinds / sizeof kinds[0] };
static unsigned long met[KINDS][2];   /* done, refused; of the check yes, no */
static unsigned long numbered[4][16]; /* of 90 and 91, 82 and 83, each number */

static int comparing;
static char ours[120000], theirs[sizeof ours];
static size_t ours_size;

/* ---- What a call leaves, as replay prints it ---- */

static void put(uint64_t x, int digits, char end)
{
    int k;
    if (ours_size + 18 > sizeof ours)
        fail("more is left than there is room for");
    for (k = digits; k-- > 0; x >>= 4)
        ours[ours_size + (size_t)k] = "0123456789abcdef"[x & 15];
    ours[ours_size + (size_t)digits] = end;
    ours_size += (size_t)digits + 1;
}

static void put_slots(const uint32_t *slots, size_t count)
{
    size_t k;
    for (k = 0; k < count; k++)
        put(slots[k], 8, '\n');
}

static void put_all(unsigned code, size_t a, tum_answer did)
{
    ours_size = 0;
    put(did.number, 2, ' ');
    put(did.value, 8, ' ');
    put(did.moves, 16, ' ');
    put(first.head, 16, ' ');
    put(first.length, 16, ' ');
    put(second.head, 16, ' ');
    put(second.length, 16, ' ');
    put(cursor.at[0], 16, ' ');
    put(cursor.at[1], 16, ' ');
    put(did.slot, 4, ' ');
    put(first.total, 16, ' ');
    put(second.total, 16, '\n');
    put_slots(first.slots, first.capacity);
    put_slots(second.slots, second.capacity);
    put_slots(lent, lent_count);
    if (code == 0x80 || code == 0x81) {
        memcpy(ours + ours_size, text, a);
        ours[ours_size + a] = '\n';
        ours_size += a + 1;
    }
}

/* Line 1 is the answer; after it come the slots. */
static void compare(const char *name)
{
    size_t got = fread(theirs, 1, ours_size, stdin), from = 0, k, number = 1;
    if (got == ours_size && memcmp(ours, theirs, got) == 0)
        return;
    for (k = 0; k < got && ours[k] == theirs[k]; k++)
        if (ours[k] == '\n')
            from = k + 1, number++;
    fprintf(stderr, "oracle/calls: %s leaves in line %zu\n  %.*s\nand replay\n  %.*s\n", name, number, (int)strcspn(ours + from, "\n"), ours + from,
            (int)(from < got ? strcspn(theirs + from, "\n") : 0), theirs + from);
    fail("they differ");
}

/* ---- A call of a kind, with numbers near every bound ---- */

static uint64_t some_position(void)
{
    uint64_t n = first.length, c = first.capacity;
    switch (below(16)) {
    case 0: return wide();
    case 1: return n;
    case 2: return n + 1;
    case 3: return n - 1;
    case 4: return 0;
    case 5: return c;
    default: return below(0 < n && n < c ? n : c + 1);
    }
}

static uint64_t some_ahead(void)
{
    size_t front = cursor.at[0], back = cursor.at[1];
    return below(5) == 0 ? some_position() : below(front < back && back <= MOST ? back - front : 2);
}

static uint64_t some_count(void)
{
    uint64_t n = first.length, c = first.capacity;
    switch (below(10)) {
    case 0: return wide();
    case 1: return c;
    case 2: return c + 1;
    case 3: return c - n;
    case 4: return c - n + 1;
    case 5: return n;
    default: return below(c + 2);
    }
}

static uint64_t some_bytes(void)
{
    uint64_t need = TUM_TEXT_BYTES(first.capacity);
    if (need > TEXT - 9)
        fail("a stored text is longer than it can be");
    switch (below(6)) {
    case 0: return need - 1;
    case 1: return below(need);
    case 2: return need + below(9);
    default: return need;
    }
}

/* A kind, or a number that is none: one of them is a kind in its low 32 bits, another in its low 8. */
static uint64_t some_kind(void)
{
    switch (below(10)) {
    case 0: return wide();
    case 1: return 2 + below(3);
    case 2: return 256 + below(2);
    default: return below(2);
    }
}

/* About what the plain call would move, where it would be done, or any. replay takes it from the cursor's front. */
static void place_allowance(unsigned code, uint64_t i)
{
    uint64_t rest = code == 0x90 ? first.length : first.length - 1, after = rest - i, moves = i < after ? i : after;
    uint64_t near[] = {0, 1, moves - 1, moves - 1, moves, moves + 1, first.length / 2, wide(), below(first.capacity + 1)};
    cursor.at[0] = (size_t)near[below(sizeof near / sizeof near[0])];
    line(7, cursor.at[0], cursor.at[1]);
}

static void make(size_t which)
{
    const kind of = kinds[which];
    uint64_t a = 0, b = 0;
    tum_answer did;
    uint8_t number;
    switch (of.needs) {
    case NOTHING: break;
    case POSITION: a = some_position(); break;
    case AHEAD: a = some_ahead(); break;
    case COUNT: a = some_count(); break;
    case ENTRY: b = entry(); break;
    case POSITION_ENTRY: a = some_position(), b = entry(); break;
    case COUNT_ENTRY: a = some_count(), b = entry(); break;
    case RANGE: a = some_position(), b = some_position(); break;
    case SLICE: a = below(second.capacity + 1); break;
    case BYTES: a = some_bytes(); break;
    case STORED: break;
    case STORED_KIND: a = some_kind(); break;
    }
    if (of.code >= 0x90)
        place_allowance(of.code, a);
    if (of.needs == STORED || of.needs == STORED_KIND)
        place_text(of.needs == STORED ? of.code % 2 : a % 2);
    line(of.code, a, b);
    did = call(of.code, (size_t)a, (size_t)b);
    number = of.code >= 0x38 && of.code <= 0x3d ? lent_number : did.number;
    met[which][of.needs == STORED_KIND ? did.value == 0 : number != TUM_DONE]++;
    if (of.code >= 0x90 || of.needs == STORED)
        numbered[of.code % 16][number]++;
    look_behind(&first);
    look_behind(&second);
    if (of.needs == BYTES && (text[a] != '-' || text[a + 1] != '-'))
        fail("a byte behind those that were lent is changed");
    if (comparing) {
        put_all(of.code, (size_t)a, did);
        compare(of.name);
    }
}

/* On large desks every kind is met in turn, first with too many slots, so that each making is refused too. Of a list that was emptied, most calls
   would show little, so a new desk is placed soon. */
static void run(uint64_t count)
{
    static const size_t large[] = {TUM_MOST_SLOTS + 1, TUM_MOST_SLOTS, MOST, TUM_MOST_SLOTS - 1, 257, 1000};
    uint64_t k, turn, left = 0;
    for (k = 0; k < count; k++) {
        if (k % LARGE == 0) {
            turn = k / LARGE;
            place(large[turn / KINDS % (sizeof large / sizeof large[0])]);
            make(turn % KINDS);
            left = 0;
            continue;
        }
        if (left == 0 || (first.length == 0 && below(3) != 0)) {
            place(some_capacity());
            left = 1 + below(CALLS);
        } else if (below(3) == 0) {
            place_cursor();
        }
        left--;
        make(below(KINDS));
    }
}

/* ---- How many of each kind ---- */

/* Whether it was never done, or never refused; of the check, never a yes, or never a no. */
static int never(const char *name, int check, const unsigned long *times, size_t column)
{
    const char *one = check ? "yes" : "done", *other = check ? "no" : "refused";
    printf("%-25s%6lu %s, %5lu %s%s", name, times[0], one, times[1], other, column == 2 ? "\n" : "   ");
    if (times[0] > 0 && times[1] > 0)
        return 0;
    fprintf(stderr, "oracle/calls: %s was never %s\n", name, times[0] == 0 ? one : other);
    return 1;
}

/* Whether a call was never answered one of its numbers. */
static int never_numbered(const char *name, const unsigned long *times, const uint8_t *numbers, size_t count)
{
    size_t k;
    int wrong = 0;
    printf("%s's answers:", name);
    for (k = 0; k < count; k++) {
        printf("%s %u in %lu", k == 0 ? "" : ",", (unsigned)numbers[k], times[numbers[k]]);
        if (times[numbers[k]] == 0) {
            fprintf(stderr, "oracle/calls: %s was never answered %u\n", name, (unsigned)numbers[k]);
            wrong = 1;
        }
    }
    puts(" calls");
    return wrong;
}

static int report(void)
{
    static const uint8_t of_insert[] = {TUM_DONE, TUM_INVALID, TUM_NO_POSITION, TUM_FULL, TUM_OVER_ALLOWANCE};
    static const uint8_t of_remove[] = {TUM_DONE, TUM_INVALID, TUM_NO_POSITION, TUM_OVER_ALLOWANCE};
    static const uint8_t of_reading[] = {TUM_DONE, TUM_INVALID, TUM_NOT_ACCEPTABLE, TUM_FULL};
    size_t k;
    int wrong = 0;
    for (k = 0; k < KINDS; k++)
        wrong |= never(kinds[k].name, kinds[k].needs == STORED_KIND, met[k], k % 3);
    for (k = 0; k < RECORD_KINDS; k++)
        wrong |= never(record_names[k], 0, record_met[k], (KINDS + k) % 3);
    if ((KINDS + RECORD_KINDS) % 3 != 0)
        puts("");
    wrong |= never_numbered("tumring_insert_within", numbered[0], of_insert, sizeof of_insert);
    wrong |= never_numbered("tumring_remove_within", numbered[1], of_remove, sizeof of_remove);
    wrong |= never_numbered("tumring_text_read", numbered[2], of_reading, sizeof of_reading);
    wrong |= never_numbered("tumvec_text_read", numbered[3], of_reading, sizeof of_reading);
    return wrong;
}

int main(int argc, char **argv)
{
    uint64_t count = argc > 3 ? strtoull(argv[3], NULL, 10) : 0;
    if (count == 0 || (strcmp(argv[1], "write") != 0 && strcmp(argv[1], "compare") != 0)) {
        fprintf(stderr, "oracle/calls: calls write SEED COUNT, or calls compare SEED COUNT <what replay printed\n");
        return 1;
    }
    comparing = silent = strcmp(argv[1], "compare") == 0;
    chance = strtoull(argv[2], NULL, 10) * 2 + 1; /* any number but 0 */
    run(count);
    if (!comparing)
        return fflush(stdout) == 0 ? 0 : 1;
    if (fgetc(stdin) != EOF)
        fail("replay printed more than the calls leave");
    records(count / ON_RECORD);
    names();
    largest();
    if (report())
        return 1;
    printf("%" PRIu64 " calls of %d kinds, all as replay prints them; %" PRIu64 " of %d kinds on records, all as the archive's functions\n", count,
           (int)KINDS, RECORD_KINDS * (count / ON_RECORD), (int)RECORD_KINDS);
    return 0;
}
