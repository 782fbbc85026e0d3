"""A client by the names of a document: registers, fields, blocks, ports, addresses, and what is refused."""

import unittest

from support import DOCUMENT, HOST, Case, board_text, free_port

from ipbus import (
    BadDocument,
    BadLine,
    BitsOutside,
    Document,
    Hub,
    IpbusError,
    NoBoard,
    NoReadPermission,
    NotConnected,
    NotWhole,
    NoWritePermission,
    PastSize,
    ReplyTooLong,
    TooLong,
    UnknownBoard,
    UnknownName,
    Unsent,
    WrongMode,
)

BOTH = board_text("b0", mtu=92) + board_text("b1", mtu=92)


class Names(Case):
    def test_simulated_boards(self):
        serving = self.serve(BOTH)
        self.use(self.hub(serving))

    def test_boards_on_ports(self):
        """The same over UDP, with packets as short as may be."""
        ports = [self.start_board("--mtu", 92) for _ in range(2)]
        text = "".join(board_text(name, port) for name, port in zip(("b0", "b1"), ports))
        self.use(self.hub(self.serve(text), mtu={"b0": 92, "b1": 92}))

    def use(self, hub: Hub) -> None:
        board = hub.board("b0")
        first, top, low = board.node("id").read(), board.node("a").node("top"), board.node("a.low")
        low.write(0x5A)
        top.write(1)
        word, field = board.node("a").read(), low.read()
        hub.node("b1:ch.word").write(7)
        other = hub.board("b1").node("ch").node("word").rmw_sum(3)
        hub.dispatch()
        self.assertEqual([first, word, field, other, f"{field:#x}"], [0xABCD, 0x8000_005A, 0x5A, 7, "0x5a"])
        before = board.node("count").rmw_bits(0xFFFF_0000, 5)
        board.node("mem").writeBlock(range(600))
        block = board.node("mem").readBlock()
        board.node("fifo").writeBlock([1, 2, 3])
        port = board.node("fifo").readBlock(2)
        board.dispatch()
        self.assertEqual((block, before, port), (list(range(600)), 7, [3, 3]))

    def test_block_offsets(self):
        hub = self.hub(self.serve())
        mem, pair, fifo = hub.node("b0:mem"), hub.node("b0:ch.pair"), hub.node("b0:fifo")
        mem.writeBlock(range(600))
        mem.writeBlock([7, 8], offset=300)
        middle, end, second = mem.readBlock(4, offset=299), mem.readBlock(offset=598), pair.readBlock(1, offset=1)
        hub.dispatch()
        self.assertEqual((middle, end, second), ([299, 7, 8, 302], [598, 599], [0]))
        self.raises(PastSize, mem.readBlock, 2, 599)
        self.raises(PastSize, pair.writeBlock, [1, 2], 1)
        self.raises(WrongMode, fifo.readBlock, 1, 1)
        for count, offset in ((1, -1), (1, None), (0, 0), (1.5, 0)):
            self.raises(BadLine, mem.readBlock, count, offset)
        self.raises(BadLine, hub.node("b0:ch.key").readBlock, 0)

    def test_addresses(self):
        """By address nothing of the table is looked at."""
        board = self.hub(self.serve()).board("b0")
        board.write(8, 0x1234)
        board.write(8, 0x5, mask=0xF0)
        word, nibble = board.read(8), board.read(8, mask=0xF0)
        before, summed = board.rmw_bits(8, 0xFF, 0x100), board.rmw_sum(8, 1)
        board.writeBlock(0x100, [1, 2, 3])
        board.writeBlock(9, [4, 5], port=True)
        block, port = board.readBlock(0x100, 3), board.readBlock(9, 2, port=True)
        key = board.read(0x3001)
        board.dispatch()
        self.assertEqual((word, nibble, before, summed), (0x1254, 5, 0x1254, 0x154))
        self.assertEqual((block, port, key), ([1, 2, 3], [5, 5], 0))
        self.raises(BadLine, board.read, 1 << 32)
        self.raises(BadLine, board.read, 0, 0)

    def test_what_a_node_is(self):
        board = self.hub(self.serve()).board("b0")
        count, low, mem = board.node("count"), board.node("a.low"), board.node("mem")
        self.assertEqual((count.address, count.mask, count.size, count.permission), (1, 0xFFFFFFFF, 1, "rw"))
        self.assertEqual((count.tags, count.description), ("counter", "how many"))
        self.assertEqual((count.mode, count.path, count.name), ("single", "b0:count", "count"))
        self.assertEqual((low.address, low.mask, mem.size, mem.mode), (8, 0xFF, 600, "block"))
        self.assertEqual([node.name for node in board.node("ch").children()], ["ch.word", "ch.key", "ch.pair"])
        self.assertEqual([node.name for node in board.node("a")], ["a.top", "a.low"])
        self.assertEqual(board.nodes("^ch[.]"), ["ch.word", "ch.key", "ch.pair"])
        self.assertEqual((board.node("ch").nodes("^[kp]"), len(board.children())), (["key", "pair"], 8))
        self.assertEqual(board.hub.nodes("b0:a.*low"), ["b0:a.low"])
        self.raises(BadLine, board.nodes, "(")
        self.raises(BadLine, board.hub.nodes, "(")

    def test_arrays_of_nodes(self):
        text = 'format = 2\n[[tables.main]]\nid = "ch"\naddress = 16\ncount = 3\nstride = 4\nmode = "hierarchical"\n'
        text += 'nodes = [ { id = "gain", address = "0x1", mask = "0xf0" } ]\n'
        text += '[[board]]\nname = "b0"\ntable = "main"\nranges = [ { base = 16, size = 16 } ]\n'
        hub = self.hub(self.serve_text(text))
        gains = [hub.node(f"b0:ch[{index}].gain") for index in range(3)]
        for index, gain in enumerate(gains):
            gain.write(index + 1)
        values = [gain.read() for gain in gains]
        hub.dispatch()
        self.assertEqual((values, [gain.address for gain in gains]), ([1, 2, 3], [17, 21, 25]))

    def test_what_is_refused(self):
        """What breaks a rule of scripts is refused by the rule's name, and nothing is sent."""
        serving = self.serve(count=1)
        hub = self.hub(serving)
        board = hub.board("b0")
        self.raises(UnknownBoard, hub.board, "b1")
        self.raises(UnknownName, board.node, "none")
        self.raises(UnknownName, board.node("a").node, "none")
        self.raises(BadLine, hub.node, "b0.a")
        self.raises(NoWritePermission, board.node("id").write, 1)
        self.raises(NoWritePermission, board.node("id").rmw_sum, 1)
        self.raises(NoReadPermission, board.node("ch.key").read)
        self.raises(WrongMode, board.node("ch").read)
        self.raises(PastSize, board.node("ch.pair").readBlock, 3)
        self.raises(PastSize, board.node("count").writeBlock, [1, 2])
        self.raises(BitsOutside, board.node("a.low").write, 256)
        self.raises(NotWhole, board.node("a.low").rmw_sum, 1)
        self.raises(NotWhole, board.node("a.low").readBlock, 1)
        for value in (1 << 32, -1, 1.5, "1", None):
            self.raises(BadLine, board.node("count").write, value)
        for values in ([], [1, None], 5):
            self.raises(BadLine, board.node("mem").writeBlock, values)
        self.raises(BadLine, board.node("mem").readBlock, 0)
        hub.dispatch()
        board.node("count").write(1)
        hub.forget()
        hub.dispatch()
        hub.close()
        self.assertEqual(serving.end()[0], "connection 1 frames 0 closed")

    def test_another_document(self):
        """The hub serves one board of short packets, and the client has another document: it is told by each code."""
        serving = self.serve(board_text(mtu=92))
        hub = Hub(Document.parse(serving.file.read_text() + board_text("b1")), HOST, serving.port)
        hub.board("b0").payload = hub.board("b1").payload
        read = hub.node("b0:mem").readBlock(100)
        self.raises(ReplyTooLong, hub.dispatch)
        hub.node("b0:mem").writeBlock(range(100))
        self.assertIn("mtu=", str(self.raises(TooLong, hub.dispatch)))
        self.raises(ReplyTooLong, read.value)
        hub.node("b1:id").read()
        self.raises(NoBoard, hub.dispatch)
        value = hub.node("b0:id").read()
        hub.dispatch()
        self.assertEqual(value, 0xABCD)
        hub.close()

    def test_a_silent_board(self):
        live, silent = self.start_board(), free_port()
        text = "rounds = 2\n" + DOCUMENT + (board_text("b0", live) + board_text("b1", silent, wait=20))
        hub = self.hub(self.serve_text(text))
        unsent, read = hub.node("b1:id").read(), hub.node("b0:id").read()
        self.assertIn("power", str(self.raises(Unsent, hub.dispatch)))
        self.assertEqual((read, unsent.valid()), (0xABCD, False))


class Errors(Case):
    """What the system and the parser raise are errors of this package."""

    def test_documents(self):
        for text, told in (
            ("board = [", "is no TOML"),
            ("rounds = 1", "has no [[board]]"),
            ('[[board]]\nname = "b0"\n', "is no session document: KeyError at 'table'"),
            ('[[board]]\nname = "b0"\ntable = "main"\n', "no register table main"),
            ('[[tables.m]]\nid = "x"\nmodule = "m"\n[[board]]\nname = "b0"\ntable = "m"\n', "leads back to itself"),
            ('[[tables.m]]\nid = "a"\nmode = "x"\n[[board]]\nname = "b0"\ntable = "m"\n', "'x' is none of single"),
            ("board = 5", "is no session document"),
        ):
            file = self.write("bad.toml", text)
            with self.assertRaises(BadDocument) as caught:
                Hub(file)
            self.assertIn(told, str(caught.exception))
        self.assertIn("No such file", str(self.raises(BadDocument, Hub, self.folder / "none.toml")))
        binary = self.folder / "bin.toml"
        binary.write_bytes(b"\xff")
        self.raises(BadDocument, Hub, binary)

    def test_connections(self):
        file = self.write("session.toml", DOCUMENT + board_text())
        for host, port in ((HOST, free_port()), ("no.such.host.invalid", 1), (HOST, 70_000)):
            error = self.raises(NotConnected, Hub, file, host, port)
            self.assertIn(f"{host}:{port}", str(error))
        self.assertTrue(issubclass(NotConnected, IpbusError))


if __name__ == "__main__":
    unittest.main()
