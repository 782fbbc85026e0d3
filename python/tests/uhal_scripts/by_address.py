import uhal

manager = uhal.ConnectionManager("file://connections.xml")
hw = manager.getDevice("dummy.udp.0")
client = hw.getClient()
address = hw.getNode("REG").getAddress()

client.write(address, 0x000000F0)
before = client.rmw_bits(address, 0xFFFFFF0F, 0x60)
after_bits = client.rmw_sum(address, 2)
after_sum = client.read(address)
nibble = client.read(address, 0xF0)
client.dispatch()
print(f"{before:#x} {after_bits:#x} {after_sum:#x} {nibble:#x}")

client.write(address, 9, 0x0F)
client.writeBlock(0x100, [1, 2, 3])
client.writeBlock(0x200, [4, 5], uhal.BlockReadWriteMode.NON_INCREMENTAL)
word, block = client.read(address), client.readBlock(0x100, 3)
port = client.readBlock(0x200, 2, uhal.BlockReadWriteMode.NON_INCREMENTAL)
hw.dispatch()
print(f"{word:#x}", list(block), list(port), client.id(), client.uri())
