/* SPDX-License-Identifier: GPL-2.0-only */
#include "strikes.h"

#include "bus.h"
#include "sja.h"

/* BEGUN: a frame has begun for a node that is at the first bit behind SOF. At SOF is the node alone that starts it. */
enum { AIMS = 256, BEGUN = SJA_ID + 28 };

/* A strike that waits. `number`: of the frame, counted down as frames begin; of a strike of the first frames that the
 * node starts, how many frames are left. */
struct aim { unsigned node; uint32_t place; int64_t number; bool is_first; };

static struct aim aims[AIMS];
static unsigned waiting;

/* Whether a node started the frame in which it is. */
static bool is_own[BUS_NODES], was_at_start[BUS_NODES];

static bool add(struct aim aim)
{
    if (waiting == AIMS)
        return false;
    if (waiting == 0)
        for (unsigned node = 0; node < BUS_NODES; node++)
            is_own[node] = was_at_start[node] = false;
    aims[waiting++] = aim;
    return true;
}

bool strikes_frame(unsigned node, unsigned number, uint32_t place)
{
    return add((struct aim){ node, place, (int64_t)number - (place == SJA_SOF), false });
}

bool strikes_first(unsigned node, unsigned times, uint32_t place)
{
    return add((struct aim){ node, place, times, true });
}

void strikes_forget(void)
{
    waiting = 0;
}

bool strikes_wait(void)
{
    return waiting > 0;
}

/* Which frame a node is in: its own from its SOF on, another's from the first bit behind an SOF that it didn't send. */
static void follow(unsigned node, uint32_t place)
{
    if (place == SJA_SOF)
        is_own[node] = true;
    else if (place == BEGUN && !was_at_start[node])
        is_own[node] = false;
    was_at_start[node] = place == SJA_SOF;
}

/* A strike at a place of the Nth frame. Whether it goes on waiting. */
static bool seek_frame(struct aim *aim, uint32_t place)
{
    aim->number -= place == BEGUN;
    if (aim->number == 0 && place == aim->place)
        return !bus_strike(aim->node, bus_ran());
    bus_counts.missed += aim->number < 0;
    return aim->number >= 0;
}

/* A strike at a place of each of the first frames that the node starts. Whether it goes on waiting. */
static bool seek_first(struct aim *aim, uint32_t place)
{
    if (place == SJA_SOF && aim->number-- == 0)
        return false;
    if (!is_own[aim->node] || place != aim->place)
        return true;
    bus_strike(aim->node, bus_ran());
    return aim->number > 0;
}

void strikes_seek(void)
{
    uint32_t places[BUS_NODES];
    unsigned kept = 0;

    for (unsigned node = 0; waiting > 0 && node < bus_nodes(); node++) {
        places[node] = bus_place(node);
        follow(node, places[node]);
    }
    for (unsigned i = 0; i < waiting; i++) {
        uint32_t place = places[aims[i].node];

        if (aims[i].is_first ? seek_first(&aims[i], place) : seek_frame(&aims[i], place))
            aims[kept++] = aims[i];
    }
    waiting = kept;
}
