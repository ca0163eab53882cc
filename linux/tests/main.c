/* SPDX-License-Identifier: GPL-2.0-only */
/* Runs the tests that are named, or all of them but `tell` and `timing`, and counts their checks. The status is 1 where
 * one doesn't hold. */
#include <stdio.h>
#include <string.h>

#include "check.h"
#include "ends.h"
#include "options.h"
#include "tests.h"

static const struct { const char *name; void (*run)(void); } tests[] = {
    { "notation", test_notation }, { "open_and_close", test_open_and_close }, { "link", test_link },
    { "dlc", test_dlc }, { "berr_reporting", test_berr_reporting }, { "listen_only", test_listen_only },
    { "one_shot", test_one_shot }, { "loopback", test_loopback }, { "presume_ack", test_presume_ack },
    { "no_acknowledgement", test_no_acknowledgement }, { "overrun", test_overrun },
    { "arbitration", test_arbitration }, { "contention", test_contention }, { "restart", test_restart },
    { "manual_restart", test_manual_restart }, { "going_down", test_going_down }, { "sweep", test_sweep },
    { "bus_off_sweep", test_bus_off_sweep }, { "random", test_random },
    { "load", test_load }, { "timing_part", test_timing_part }, { "timing", test_timing },
    { "tell", test_tell },
};
enum { TESTS = sizeof tests / sizeof tests[0] };

static int is_named(const char *name)
{
    for (unsigned i = 0; i < options()->count; i++)
        if (strcmp(options()->names[i], name) == 0)
            return 1;
    return options()->count == 0 && strcmp(name, "tell") != 0 && strcmp(name, "timing") != 0;
}

int main(int count, char **words)
{
    unsigned ran = 0;

    if (read_options(count, words) != 0)
        return 2;
    for (int i = 0; i < TESTS; i++) {
        long made = checks_made(), wrong = checks_wrong();

        if (!is_named(tests[i].name))
            continue;
        ends_say(tests[i].name);
        set_axis();
        tests[i].run();
        ran++;
        printf("%s: %ld checks, %ld wrong\n", tests[i].name, checks_made() - made, checks_wrong() - wrong);
        fflush(stdout);
    }
    printf("%u tests, %ld checks, %ld wrong\n", ran, checks_made(), checks_wrong());
    return ran < options()->count || ran == 0 || checks_wrong() > 0;
}
