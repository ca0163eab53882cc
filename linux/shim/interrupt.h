/* SPDX-License-Identifier: GPL-2.0-only */
/* Interrupts. Stands for linux/interrupt.h and irqreturn.h. A line is a level: as long as a controller holds it, the
 * handlers of its number are called. A handler may ask for its thread, which runs once the handlers are through. */
#ifndef SHIM_INTERRUPT_H
#define SHIM_INTERRUPT_H

#include "types.h"

typedef enum { IRQ_NONE = 0, IRQ_HANDLED = 1, IRQ_WAKE_THREAD = 2 } irqreturn_t;
typedef irqreturn_t (*irq_handler_t)(int irq, void *id);
enum { IRQF_SHARED = 0x80, IRQF_ONESHOT = 0x2000 };

int request_threaded_irq(unsigned int irq, irq_handler_t handler, irq_handler_t thread, unsigned long flags,
                         const char *name, void *id);
const void *free_irq(unsigned int irq, void *id);
/* The first waits until no handler of the line is called any more. */
void disable_irq(unsigned int irq);
void disable_irq_nosync(unsigned int irq);
void enable_irq(unsigned int irq);
#define request_irq(irq, handler, flags, name, id) request_threaded_irq(irq, handler, NULL, flags, name, id)

/* Calls the handlers of a line that is active. Whether one of them took it for its own. */
bool shim_interrupt(unsigned int irq);
/* The handlers of a line are left in the midst. */
void shim_leave_interrupt(unsigned int irq);
/* Whether a line that is active would be handled. */
bool shim_is_handled(unsigned int irq);
/* No line has a handler: a bus ends. */
void shim_forget_interrupts(void);

#endif
