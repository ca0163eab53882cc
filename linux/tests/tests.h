/* SPDX-License-Identifier: GPL-2.0-only */
/* The tests by name. */
#ifndef TESTS_TESTS_H
#define TESTS_TESTS_H

void test_open_and_close(void);
void test_link(void);
void test_dlc(void);
void test_notation(void);
void test_berr_reporting(void);
void test_listen_only(void);
void test_one_shot(void);
void test_loopback(void);
void test_presume_ack(void);
void test_no_acknowledgement(void);
void test_overrun(void);
void test_arbitration(void);
void test_contention(void);
void test_restart(void);
void test_manual_restart(void);
void test_going_down(void);
void test_sweep(void);
void test_bus_off_sweep(void);
void test_random(void);
void test_tell(void);
void test_load(void);
void test_timing_part(void);
void test_timing(void);

#endif
