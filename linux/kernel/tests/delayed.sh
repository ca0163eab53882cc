# SPDX-License-Identifier: GPL-2.0-only
# A frame as it is, one with each delay: delayed.py looks at the log.
up 0 1 || exit
sleep 0.01
bus where
cansend can0 123#1122
sleep 0.01
bus latency 300
cansend can0 123#1122
sleep 0.01
bus latency 0
bus access_bits 3/2
cansend can0 123#1122
sleep 0.01
bus access_bits 0
bus late 5 300
cansend can0 123#1122
sleep 0.01
