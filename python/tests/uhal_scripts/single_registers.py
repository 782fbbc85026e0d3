import uhal

uhal.setLogLevelTo(uhal.LogLevel.WARNING)
manager = uhal.ConnectionManager("file://connections.xml")
hw = manager.getDevice("dummy.udp.0")

hw.getNode("REG").write(0xDEADBEEF)
reg = hw.getNode("REG").read()
hw.dispatch()
print("REG =", hex(reg))
assert reg == 0xDEADBEEF

# the bits of a mask, without touching the others
hw.getNode("CTRL").write(0)
hw.getNode("CTRL.GAIN").write(5)
hw.getNode("CTRL.ENABLE").write(1)
gain = hw.getNode("CTRL").getNode("GAIN").read()
ctrl = hw.getNode("CTRL").read()
hw.dispatch()
print("GAIN = %d, CTRL = 0x%08x" % (gain, ctrl))
if ctrl & 0x1 and gain > 4:
    print("enabled, with a mask of", hex(gain.mask()))
