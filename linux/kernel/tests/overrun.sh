# SPDX-License-Identifier: GPL-2.0-only
# Two kernels of one node each. Eight frames of eight bytes come from the first, while handlers of the second are called
# 10,000 bits late: its FIFO of 64 bytes runs over.
command -v candump >/dev/null || { echo "there is no candump: apt-get install can-utils" >&2 && exit 1; }
up 0 || exit
if [ "$number" = 0 ]; then
    sleep 0.1
    for i in 1 2 3 4 5 6 7 8; do cansend can0 12$i#0102030405060708; done
    sleep 0.5
    exit
fi
candump -L can0,0:0,#FFFFFFFF > /run/log 2> /dev/null &
candump=$!
sleep 0.05
bus latency 10000
sleep 0.2
bus latency 0
sleep 0.3
kill $candump
sed 's/^([^)]*) //' /run/log
ip -statistics link show can0 | grep -A1 RX:
