import uhal

manager = uhal.ConnectionManager("file://connections.xml")
hw = manager.getDevice("dummy.udp.0")
print(hw.id(), hw.uri())

print(len(hw.getNodes()), hw.getNodes("SUBSYSTEM.*"))
print(hw.getNode("SUBSYSTEM2").getNodes("[A-Z]+"))
for name in hw.getNodes(".*THRESHOLD"):
    node = hw.getNode(name)
    print(node.getPath(), node.getId(), hex(node.getAddress()), hex(node.getMask()), node.getTags())

reg, memory = hw.getNode("REG"), hw.getNode("MEM")
print(reg.getDescription(), reg.getParameters(), reg.getPermission() == uhal.NodePermission.READWRITE)
print(memory.getFirmwareInfo(), memory.getMode(), memory.getSize(), memory.getDescription())
print(hw.getNode("SUBSYSTEM1").getModule(), hw.getNode("ID").getPermission(), hw.getNode("ID").getTags())

tuning = [node for node in hw.getNode() if node.getTags() == "tuning"]
for number, node in enumerate(tuning):
    node.write(number + 1)
values = {node.getPath(): node.read() for node in tuning}
hw.dispatch()
for path, value in sorted(values.items()):
    print(path, value)
