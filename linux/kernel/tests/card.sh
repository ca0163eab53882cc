# SPDX-License-Identifier: GPL-2.0-only
# What a card has to do: a frame each way, a struck bit, bus-off and the restart, a frame each way after it. Prints what
# candump wrote, without times, and what ip says.
command -v candump >/dev/null || { echo "there is no candump: apt-get install can-utils" >&2 && exit 1; }
up 0 1 || exit
candump -L any,0:0,#FFFFFFFF > /run/log 2> /dev/null &
candump=$!
sleep 0.01
cansend can0 123#1122
sleep 0.01
cansend can1 456#33
sleep 0.01
bus strike 1 frame 1 stuff.2
cansend can0 123#1122
sleep 0.01
bus strike 0 data 1.4 x32
cansend can0 123#1122
sleep 0.3
cansend can0 123#7788
sleep 0.01
cansend can1 456#99
sleep 0.01
kill $candump
sed 's/^([^)]*) //' /run/log
ip -details -statistics link show can0 | sed -n 's/^[[:space:]]*//; 3p; 8,9p' | cut -c1-65
