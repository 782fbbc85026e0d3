import uhal

manager = uhal.ConnectionManager("file://connections.xml")
hw = manager.getDevice("dummy.controlhub.0")
fifo = hw.getNode("FIFO")
print(fifo.getMode() == uhal.BlockReadWriteMode.NON_INCREMENTAL, fifo.getSize())

# all words go to one address, so this one keeps the last
fifo.writeBlock([10, 20, 30])
words = fifo.readBlock(3)
hw.dispatch()
print(list(words))
