import uhal

manager = uhal.ConnectionManager("file://connections.xml")
names = manager.getDevices()
print(names, manager.getDevices("dummy[.]udp.*"))
devices = [manager.getDevice(name) for name in names]

for number, device in enumerate(devices):
    device.getNode("SUBSYSTEM1.THRESHOLD").write(100 + number)
    device.getNode("SUBSYSTEM2.BUFFER").writeBlock(range(number, number + 8))
thresholds = [device.getNode("SUBSYSTEM1.THRESHOLD").read() for device in devices]
buffers = [device.getNode("SUBSYSTEM2.BUFFER").readBlock(8) for device in devices]
for device in devices:
    device.dispatch()

for name, threshold, buffer in zip(names, thresholds, buffers):
    print(name, threshold, list(buffer), sum(buffer))
