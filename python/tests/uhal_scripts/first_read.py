import uhal

manager = uhal.ConnectionManager("file://connections.xml")
hw = manager.getDevice("dummy.udp.0")

# what is asked waits for the dispatch
reg = hw.getNode("ID").read()
hw.dispatch()

print("ID =", hex(reg))
