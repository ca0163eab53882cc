# SPDX-License-Identifier: GPL-2.0-only
# A frame, then one whose sender loses arbitration by a struck bit: what the stack got, and what KASAN, UBSAN, lockdep,
# and kmemleak say since the boot, in which no time passes: User-mode Linux has warnings of its own there.
command -v candump >/dev/null || { echo "there is no candump: apt-get install can-utils" >&2 && exit 1; }
up 0 1 || exit
candump -L any,0:0,#FFFFFFFF > /run/log 2> /dev/null &
candump=$!
sleep 0.01
cansend can0 123#1122
sleep 0.01
bus strike 0 frame 1 ID.26
cansend can0 123#1122
sleep 0.01
kill $candump
sed 's/^([^)]*) //' /run/log
dmesg | grep -v '^\[ *0\.000000\]' | grep -E 'BUG:|WARNING:|inconsistent|UBSAN:'
if [ -w /sys/kernel/debug/kmemleak ]; then
    echo scan > /sys/kernel/debug/kmemleak
    grep sja1000 /sys/kernel/debug/kmemleak
fi
true
