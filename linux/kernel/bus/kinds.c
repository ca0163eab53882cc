/* SPDX-License-Identifier: GPL-2.0-only */
#include "kinds.h"

const struct kind kinds[] = {
    /* Memory without a PCI driver, in which up to eight controllers lie 32 bytes apart. */
    { .name = "sja1000_isa", .option = "CONFIG_CAN_SJA1000_ISA", .vendor = 0x1234, .device = 0x5a5a, .bars = { 256 },
      .bar = 0, .between = 32, .stride = 1, .channels = 8, .is_plain = true },
    /* Kvaser PCIcan: an S5920 whose INTCSR lets interrupts through; the version of the Xilinx chip is 14. */
    { .name = "kvaser_pci", .option = "CONFIG_CAN_KVASER_PCI", .vendor = 0x10e8, .device = 0x8406,
      .bars = { 128, 128, 16 }, .bar = 1, .between = 32, .stride = 1, .channels = 4, .gate_at = 0x38, .gate = 0x2000,
      .constant = { 2, 7, 14 << 4 } },
    /* PEAK PCAN-PCI Express: a PITA whose ICR keeps interrupts in its low half, and lets them through by its high. */
    { .name = "peak_pci", .option = "CONFIG_CAN_PEAK_PCI", .vendor = 0x001c, .device = 0x0003, .subvendor = 0x001c,
      .subdevices = { 0, 4, 10, 12 }, .bars = { 4096, 4096 }, .bar = 1, .between = 1024, .stride = 4, .channels = 4,
      .gate_at = 0, .latches = { 0x02, 0x01, 0x40, 0x80 } },
    /* EMS CPC-PCI, version 2: a PLX 9030 whose INTCSR lets LINTi1 through. */
    { .name = "ems_pci", .option = "CONFIG_CAN_EMS_PCI", .vendor = 0x10b5, .device = 0x9030, .subvendor = 0x10b5,
      .subdevices = { 0x4000, 0x4000, 0x4000, 0x4000 }, .bars = { 128, 0, 4096 }, .bar = 2, .first = 0x400,
      .between = 0x200, .stride = 1, .channels = 4, .gate_at = 0x4c, .gate = 0x41 },
};

const unsigned kinds_count = sizeof kinds / sizeof *kinds;
