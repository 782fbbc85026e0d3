import sys

import uhal

uhal.disableLogging()
uri, address_table = sys.argv[1:]
hw = uhal.getDevice("mine", uri, address_table)
hw.setTimeoutPeriod(5000)
print(hw, hw.getTimeoutPeriod(), hw.getClient().getTimeoutPeriod())

mem = hw.getNode("MEM")
for start in range(0, 64, 16):
    mem.writeBlockOffset(list(range(start, start + 16)), start)
hw.dispatch()

total = 0
for offset in range(0, 64, 8):
    words = mem.readBlockOffset(8, offset)
    hw.dispatch()
    total += sum(words)
print("total", total)
print(hw.getNode("ID").read().valid())
