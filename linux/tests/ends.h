/* SPDX-License-Identifier: GPL-2.0-only */
/* A test that ends the program by a signal or a sanitizer: its name is said all the same. */
#ifndef TESTS_ENDS_H
#define TESTS_ENDS_H

/* Has this name said where the program ends so from now on. */
void ends_say(const char *name);

#endif
