/* SPDX-License-Identifier: GPL-2.0-only */
/* The sweep: each bit of a frame is struck at each of three nodes, one strike a bus. Each driver has to hand its stack
 * what its controller stored, the sender's frame comes back once, each error frame says what the controller told, and
 * after it all three exchange frames. The table counts by field what became of the frame. */
#include <stdio.h>
#include <string.h>

#include "check.h"
#include "judge.h"
#include "place.h"
#include "strikes.h"
#include "tests.h"
#include "witness.h"

enum { NODES = 3, BITS = 4000, FIELDS = 24, FIELD_NAME = 20, MOST_WRONG = 10 };

/* A row of the table: a field of the frame, and what became of the frame in the runs in which it was struck. */
struct row {
    char name[FIELD_NAME];
    unsigned strikes, once, twice, never, errors, wrong;
};

struct table {
    struct row rows[FIELDS];
    unsigned count;
};

/* The field of a place: its name without its number. */
static void field_of(const char *place, char field[FIELD_NAME])
{
    size_t length = strncmp(place, "data", 4) == 0 ? 4 : strcspn(place, ".");

    snprintf(field, FIELD_NAME, "%.*s", (int)length, place);
}

static struct row *row_of(struct table *table, const char *place)
{
    char field[FIELD_NAME];

    field_of(place, field);
    for (unsigned i = 0; i < table->count; i++)
        if (strcmp(table->rows[i].name, field) == 0)
            return &table->rows[i];
    memset(&table->rows[table->count], 0, sizeof table->rows[0]);
    snprintf(table->rows[table->count].name, FIELD_NAME, "%s", field);
    return &table->rows[table->count++];
}

static void exchanges(const char *where)
{
    for (unsigned node = 0; node < NODES; node++)
        bus_send(node, node == 0 ? "7F0#AA" : node == 1 ? "7F1#BB" : "7F2#CC");
    bus_run(600);
    for (unsigned node = 0; node < NODES; node++) {
        check(count_frames(node, FRAME_RECEIVED, "7F0#AA") == (node != 0), "%s: can%u hasn't 7F0#AA once", where, node);
        check(count_frames(node, FRAME_RECEIVED, "7F1#BB") == (node != 1), "%s: can%u hasn't 7F1#BB once", where, node);
        check(count_frames(node, FRAME_RECEIVED, "7F2#CC") == (node != 2), "%s: can%u hasn't 7F2#CC once", where, node);
    }
}

/* What the two receivers have of the frame, the worse of both: never, once, or more often. */
static void count_outcome(struct row *row, const char *frame)
{
    unsigned one = count_frames(1, FRAME_RECEIVED, frame), two = count_frames(2, FRAME_RECEIVED, frame);

    row->never += one == 0 || two == 0;
    row->twice += one > 0 && two > 0 && (one > 1 || two > 1);
    row->once += one == 1 && two == 1;
    for (unsigned node = 0; node < NODES; node++)
        row->errors += count_kind(node, FRAME_ERROR);
}

/* Each driver handed over as many frames as its controller stored: the report ends the session, so this is last. */
static void delivered_what_was_stored(const char *where)
{
    unsigned had[NODES];

    for (unsigned node = 0; node < NODES; node++)
        had[node] = count_kind(node, FRAME_RECEIVED);
    for (unsigned node = 0; node < NODES; node++)
        check(stored_by(node) == (long)had[node], "%s: can%u stored %ld frames and handed over %u", where, node,
              stored_by(node), had[node]);
}

/* What the run ends with, beside what is looked at in it. */
static void check_ends(const char *where, const struct facts *facts)
{
    checks_at(where);
    if (judge_is_on()) {
        judge_after(NODES);
        judge_rest(NODES, facts);
    } else {
        check(witness_end(where) == 0, "%s: error frames aren't what the controller told", where);
        delivered_what_was_stored(where);
    }
    end_bus();
}

/* One run of the sweep. Whether something went wrong in it. */
static unsigned strike_one(struct row *row, const char *frame, unsigned node, int bit, const char *place)
{
    static const struct facts struck = { 0, 1, 0 };
    long before = checks_wrong();
    uint64_t start;
    char where[100];

    snprintf(where, sizeof where, "%s, can%u struck in %s", frame, node, place);
    witness_begin();
    begin_up(NODES, BITS, "bitrate 500000 berr-reporting on");
    check_number("cansend", bus_send(0, frame), 0);
    start = bus_now();                      /* the SOF of a frame that is sent at rest */
    check_number("strike", bus_strike(node, start + (uint64_t)bit), 0);
    bus_run(600);
    row->strikes++;
    count_outcome(row, frame);
    check(count_frames(0, FRAME_SENT, frame) == 1, "%s: it doesn't come back as sent once", where);
    exchanges(where);
    check_ends(where, &struck);
    row->wrong += checks_wrong() > before;
    return checks_wrong() > before;
}

static void print(const struct table *table, const char *frame, unsigned node)
{
    printf("%s, %s\n", frame, node == 0 ? "the sender is struck" : "each receiver is struck");
    printf("  %-16s strikes   once  twice  never  error frames  wrong\n", "field");
    for (unsigned i = 0; i < table->count; i++) {
        const struct row *row = &table->rows[i];

        printf("  %-16s %7u %6u %6u %6u %13u %6u\n", row->name, row->strikes, row->once, row->twice, row->never,
               row->errors, row->wrong);
    }
}

/* The sender is struck, or each receiver in turn. */
static void sweep(const char *frame, unsigned first, unsigned last)
{
    struct place places[PLACES];
    struct table table = { .count = 0 };
    size_t count = bus_places(frame, places);
    unsigned wrong = 0;

    for (unsigned node = first; node <= last; node++)
        for (size_t bit = 0; bit < count && wrong < MOST_WRONG; bit++)
            wrong += strike_one(row_of(&table, places[bit].name), frame, node, (int)bit, places[bit].name);
    print(&table, frame, first);
    if (wrong == MOST_WRONG)
        printf("  the sweep of this frame ends here: %u strikes went wrong\n", wrong);
}

void test_sweep(void)
{
    static const char *const frames[] = { "123#1122", "12345678#0055AAFF", "0F0#R4" };

    for (size_t i = 0; i < sizeof frames / sizeof frames[0]; i++) {
        sweep(frames[i], 0, 0);
        sweep(frames[i], 1, NODES - 1);
    }
    printf("  states told: %u by the greater counter, %u otherwise\n", witness_states_by_greater(),
           witness_states_otherwise());
}

/* A run of bus-off ends so. */
static void check_off_ends(const char *where)
{
    static const struct facts off = { 1, 1, 0 };

    checks_at(where);
    if (judge_is_on()) {
        judge_after(NODES);
        judge_rest(NODES, &off);
    } else {
        check(witness_end(where) == 0, "%s: error frames aren't what the controller told", where);
    }
    end_bus();
}

/* The same place of each frame is struck at the sender until it is bus-off. The driver restarts by restart-ms, and the
 * next frame is on the bus at once, and once with each receiver. Whether something went wrong. */
static unsigned strike_each(const char *frame, int bit, const char *place, unsigned *off)
{
    long before = checks_wrong();
    char where[100];
    unsigned frames;

    snprintf(where, sizeof where, "%s, the sender struck in %s of each frame", frame, place);
    witness_begin();
    begin_up(NODES, 20000, "bitrate 500000 berr-reporting on restart-ms 1");
    bus_send(0, frame);
    frames = strike_to_bus_off(0, bit, 40);
    *off += frames > 0;
    bus_run(1000);
    if (frames > 0) {
        check(details_of(0).restarts == 1, "%s: %u restarts", where, (unsigned)details_of(0).restarts);
        check(details_of(0).txerr == 0 && details_of(0).state == STATE_ACTIVE, "%s: txerr %u after the restart", where,
              (unsigned)details_of(0).txerr);
    }
    check_number("cansend", bus_send(0, "124#33"), 0);
    bus_run(300);
    for (unsigned node = 1; node < NODES; node++)
        check(count_frames(node, FRAME_RECEIVED, "124#33") == 1, "%s: can%u hasn't the next frame once", where, node);
    check_off_ends(where);
    return checks_wrong() > before;
}

void test_bus_off_sweep(void)
{
    static const char frame[] = "123#1122";
    struct place places[PLACES];
    size_t count = bus_places(frame, places);
    unsigned off = 0, wrong = 0;

    for (size_t bit = 1; bit < count && wrong < MOST_WRONG; bit++)
        wrong += strike_each(frame, (int)bit, places[bit].name, &off);
    printf("  %s: %u of %zu places that are struck in each frame bring the sender to bus-off\n", frame, off, count - 1);
    if (wrong == MOST_WRONG)
        printf("  the sweep ends here: %u strikes went wrong\n", wrong);
    printf("  states told: %u by the greater counter, %u otherwise\n", witness_states_by_greater(),
           witness_states_otherwise());
}
