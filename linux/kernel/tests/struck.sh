# SPDX-License-Identifier: GPL-2.0-only
# A frame, a struck bit of it, bus-off and the restart, as candump tells them: linux/kernel/run KERNEL struck.sh
command -v candump >/dev/null || { echo "there is no candump: apt-get install can-utils" >&2 && exit 1; }
up 0 1 || exit
candump -L any,0:0,#FFFFFFFF > /run/log 2> /dev/null &
candump=$!
sleep 0.1

# told: what candump wrote since the last time
lines=0
told() {
    tail -n "+$((lines + 1))" /run/log
    lines=$(wc -l < /run/log)
}

echo "--- a frame"
cansend can0 123#1122
sleep 0.1
told
echo "--- a struck bit"
bus strike 1 frame 1 stuff.2
cansend can0 123#1122
sleep 0.1
told
echo "--- bus-off and restart"
bus strike 0 data 1.4 x32
cansend can0 123#1122
sleep 0.5
told | grep -E '2000028C|20000040|20000100'
echo "--- after it"
lines=$(wc -l < /run/log)
cansend can0 123#7788
cansend can1 456#99
sleep 0.1
told
kill $candump
