import ipbus.uhal as uhal

manager = uhal.ConnectionManager("file://connections.xml")
board = manager.getDevice("b0")

gain = board.getNode("ctrl.gain")
gain.write(5)
read_back = gain.read()
board.getNode("buffer").writeBlock([1, 2, 3])
block = board.getNode("buffer").readBlock(3)
board.dispatch()
print(f"gain {int(read_back)}, buffer {list(block)}")

count = board.getNode("count")
before = board.getClient().rmw_sum(count.getAddress(), 1)
board.dispatch()
print(f"count was {int(before)}")

try:
    gain.write(16)
except uhal.exception as error:
    print(error)
