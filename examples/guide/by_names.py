from ipbus import Hub, IpbusError

hub = Hub("session.toml", "127.0.0.1", 5000)
board = hub.board("b0")

gain = board.node("ctrl.gain")
gain.write(5)
read_back = gain.read()
board.node("buffer").writeBlock([1, 2, 3])
block = board.node("buffer").readBlock(3)
hub.dispatch()
print(f"gain {read_back}, buffer {block}")
if read_back == 5 and block[0] & 1:
    print("as written")

before = board.node("count").rmw_sum(1)
hub.dispatch()
print(f"count was {before}")

try:
    gain.write(16)
except IpbusError as error:
    print(error)
