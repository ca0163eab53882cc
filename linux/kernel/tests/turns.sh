# SPDX-License-Identifier: GPL-2.0-only
# Kernels of one node each: each sends a frame in its turn, and prints what its stack got.
command -v candump >/dev/null || { echo "there is no candump: apt-get install can-utils" >&2 && exit 1; }
up 0 || exit
candump -L can0,0:0,#FFFFFFFF > /run/log 2> /dev/null &
candump=$!
sleep 0.1$number
[ "$number" != 0 ] || bus strike 1 frame 1 stuff.1
cansend can0 $((123 + number))#0$number
sleep 0.1
kill $candump
echo "--- kernel $number"
cat /run/log
