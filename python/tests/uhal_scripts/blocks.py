import random

import uhal

manager = uhal.ConnectionManager("file://connections.xml")
hw = manager.getDevice("dummy.udp.0")
memory = hw.getNode("MEM")

size = memory.getSize()
values = [random.randint(0, 0xFFFFFFFF) for _ in range(size)]
memory.writeBlock(values)
read_back = memory.readBlock(size)
part = memory.readBlockOffset(4, 16)
hw.dispatch()

print("size", read_back.size(), len(read_back), "same:", list(read_back) == values)
print("part:", part == values[16:20], part[0] == values[16], part.at(1) == values[17])

memory.writeBlockOffset([1, 2, 3], 253)
tail = memory.readBlockOffset(4, 252)
hw.dispatch()
print("tail:", list(tail)[1:], "sum", sum(tail[1:]))
for word in tail.value()[1:]:
    print(hex(word))
