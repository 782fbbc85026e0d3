import uhal

manager = uhal.ConnectionManager("file://connections.xml")
hw = manager.getDevice("dummy.udp.0")

header = hw.getNode("REG").write(7)
reg = hw.getNode("REG").read()
block = hw.getNode("MEM").readBlock(4)
print("before:", header.valid(), reg.valid(), block.valid())
try:
    print(reg.value())
except uhal.NonValidatedMemory as error:
    print("no value yet")

hw.dispatch()
print("after:", header.valid(), reg.valid(), block.valid())
print(reg.value(), int(reg), reg + 1, reg * 2, reg << 4, -reg, reg / 2, f"{reg:04x}", str(reg))
print(reg == 7, 7 == reg, reg != 7, reg in (1, 7), {7: "seven"}[reg], bool(reg), max(reg, 3))
print(isinstance(reg, uhal.ValWord_uint32), isinstance(block, uhal.ValVector_uint32))
