/* SPDX-License-Identifier: GPL-2.0-only */
/* Interrupts: who handles a line, and what becomes of one that no one takes. */
#include "shim.h"

#include "../turns.h"

enum { ACTIONS = 16, LINES = 64, NOBODY = 100 };

struct action {
    unsigned int irq;
    irq_handler_t handler, thread;
    unsigned long flags;
    void *id;
};

static struct action actions[ACTIONS];
static unsigned unhandled[LINES], disabled[LINES];
static bool handled[LINES];     /* its handlers are called */

static struct action *free_action(void)
{
    for (unsigned i = 0; i < ACTIONS; i++)
        if (actions[i].handler == NULL)
            return &actions[i];
    return NULL;
}

/* A line has several handlers only where each of them shares it. */
int request_threaded_irq(unsigned int irq, irq_handler_t handler, irq_handler_t thread, unsigned long flags,
                         const char *name, void *id)
{
    struct action *place = free_action();

    (void)name;
    if (irq >= LINES || handler == NULL)
        return -EINVAL;
    for (unsigned i = 0; i < ACTIONS; i++)
        if (actions[i].handler != NULL && actions[i].irq == irq && !(actions[i].flags & flags & IRQF_SHARED))
            return -EBUSY;
    if (place == NULL)
        return -ENOMEM;
    *place = (struct action){ irq, handler, thread, flags, id };
    unhandled[irq] = disabled[irq] = 0;
    return 0;
}

const void *free_irq(unsigned int irq, void *id)
{
    for (unsigned i = 0; i < ACTIONS; i++)
        if (actions[i].handler != NULL && actions[i].irq == irq && actions[i].id == id) {
            actions[i] = (struct action){ 0 };
            turns_until_false(&handled[irq]);
            return "";
        }
    shim_log("bug", NULL, "BUG: Trying to free already-free IRQ %u\n", irq);
    return NULL;
}

void disable_irq_nosync(unsigned int irq)
{
    disabled[irq]++;
}

void disable_irq(unsigned int irq)
{
    disable_irq_nosync(irq);
    turns_until_false(&handled[irq]);
}

void enable_irq(unsigned int irq)
{
    if (disabled[irq] == 0)
        shim_log("bug", NULL, "BUG: Unbalanced enable for IRQ %u\n", irq);
    else
        disabled[irq]--;
}

bool shim_is_handled(unsigned int irq)
{
    for (unsigned i = 0; i < ACTIONS; i++)
        if (actions[i].handler != NULL && actions[i].irq == irq)
            return disabled[irq] == 0;
    return false;
}

/* The kernel switches a line off that was held 99,900 times of 100,000 and not taken; here it is 100 times in a row. */
static void count_unhandled(unsigned int irq)
{
    if (++unhandled[irq] < NOBODY)
        return;
    shim_log("bug", NULL, "BUG: irq %u: nobody cared\n", irq);
    disabled[irq]++;
}

void shim_leave_interrupt(unsigned int irq)
{
    handled[irq] = false;
}

bool shim_interrupt(unsigned int irq)
{
    bool taken = false, wakes[ACTIONS] = { false };

    handled[irq] = true;
    for (unsigned i = 0; i < ACTIONS; i++)
        if (actions[i].handler != NULL && actions[i].irq == irq) {
            irqreturn_t told = actions[i].handler((int)irq, actions[i].id);

            taken = taken || told != IRQ_NONE;
            wakes[i] = (told & IRQ_WAKE_THREAD) != 0;
        }
    for (unsigned i = 0; i < ACTIONS; i++)
        if (wakes[i] && actions[i].thread != NULL)
            actions[i].thread((int)irq, actions[i].id);
    handled[irq] = false;
    if (taken)
        unhandled[irq] = 0;
    else
        count_unhandled(irq);
    return taken;
}

void shim_forget_interrupts(void)
{
    memset(actions, 0, sizeof actions);
    memset(unhandled, 0, sizeof unhandled);
    memset(disabled, 0, sizeof disabled);
    memset(handled, 0, sizeof handled);
}
