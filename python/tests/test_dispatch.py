"""A dispatch that is interrupted, runs out of time or is cut: values say that they may have been executed, and the next
call connects anew. Another hub's replies are not believed, and threads take turns."""

import contextlib
import os
import signal
import threading
import time
import unittest
import unittest.mock

from support import HOST, Case, Stub, board_text, coded, read_done, replied

from ipbus import (
    BusError,
    ConnectionEnded,
    Garbled,
    Hub,
    Interrupted,
    NoAnswerInTime,
    NotConnected,
    NotSent,
    Skipped,
    Unanswered,
    WrongBoard,
)
from ipbus.errors import BY_CODE
from ipbus.packets import READ, transaction_header

# milliseconds by which the answers of a board are late, and that its hub waits for each
LATE, WAIT = 1500, 6000


class Interruption(Case):
    def interrupt_once(self, holds) -> None:
        """A control-C comes once this holds."""

        def watch() -> None:
            while not holds():
                time.sleep(0.005)
            os.kill(os.getpid(), signal.SIGINT)

        threading.Thread(target=watch, daemon=True).start()

    def test_control_c_in_a_dispatch(self):
        """A sum that the board executed says so; the connection is made anew, and no operation is one answer behind."""
        port = self.start_board("--late", LATE)
        hub = self.hub(self.serve(board_text(port=port, wait=WAIT)))
        count = hub.node("b0:count")
        interrupted = count.rmw_sum(1)
        with self.assertRaises(KeyboardInterrupt):
            self.interrupt_once(self.executed)
            hub.dispatch()
        error = self.raises(Interrupted, interrupted.value)
        self.assertIn("may have been executed", str(error))
        for expected in (8, 9, 10):
            before = count.rmw_sum(1)
            hub.dispatch()
            self.assertEqual(before, expected)
        self.assertEqual(len(self.executed()), 4)

    def test_control_c_before_all_is_sent(self):
        """What was sent may have been executed, and what was not sent was not."""
        stub = Stub(self, [60])
        hub = self.stub_hub(stub)
        mem = hub.node("b0:mem")
        values = [mem.readBlock(250) for _ in range(200)]
        with self.assertRaises(KeyboardInterrupt):
            self.interrupt_once(lambda: stub.heard)
            hub.dispatch()
        self.raises(Interrupted, values[0].value)
        self.assertIn("was not executed", str(self.raises(NotSent, values[-1].value)))

    def test_time_out(self):
        port = self.start_board("--late", LATE)
        hub = self.hub(self.serve(board_text(port=port, wait=WAIT)))
        count = hub.node("b0:count")
        value = count.rmw_sum(1)
        began = time.monotonic()
        error = self.raises(NoAnswerInTime, hub.dispatch, 0.1)
        self.assertLess(time.monotonic() - began, LATE / 1000)
        self.assertIn("may have been executed", str(error))
        self.raises(NoAnswerInTime, value.value)
        value = count.read()
        hub.dispatch()
        self.assertEqual(value, 8)

    def test_cut_connection(self):
        """One that the hub ends, one within a frame, one with a frame of another board, and one that is no frame."""
        for answers in ([lambda *_: None], [lambda *_: b"\0\0"], [replied(board_after=1)], [lambda *_: bytes(9000)]):
            stub = Stub(self, answers, [read_done(7)])
            hub = self.stub_hub(stub)
            values = [hub.node("b0:id").read() for _ in range(2)]
            error = self.raises(ConnectionEnded, hub.dispatch)
            self.assertIn("may have been executed", str(error))
            for value in values:
                self.raises(ConnectionEnded, value.value)
            value = hub.node("b0:id").read()
            hub.dispatch()
            self.assertEqual((value, stub.taken), (7, 2))
            hub.close()

    def test_the_hub_ends_and_comes_again(self):
        serving = self.serve(count=1)
        hub = self.hub(serving)
        serving.process.kill()
        serving.process.wait()
        value = hub.node("b0:id").read()
        self.raises(ConnectionEnded, hub.dispatch)
        self.raises(ConnectionEnded, value.value)
        value = hub.node("b0:id").read()
        error = self.raises(NotConnected, hub.dispatch)
        self.assertIn("Start the hub", str(error))
        self.raises(NotConnected, value.value)
        self.serve(port=serving.port)
        value = hub.node("b0:id").read()
        hub.dispatch()
        self.assertEqual(value, 0xABCD)

    def test_close_and_context(self):
        serving = self.serve()
        with Hub(serving.file, HOST, serving.port) as hub:
            hub.node("b0:count").write(5)
        hub.dispatch()
        value = hub.node("b0:count").read()
        hub.dispatch()
        hub.close()
        self.assertEqual(value, 5)


class Replies(Case):
    def test_every_code(self):
        """Each code has an exception of its own, also one that is not known, and the connection goes on."""
        codes = [*BY_CODE, 99]
        stub = Stub(self, [*map(coded, codes), read_done(7)])
        hub = self.stub_hub(stub)
        for code in codes:
            value = hub.node("b0:id").read()
            error = self.raises(BY_CODE.get(code, Unanswered), hub.dispatch)
            self.assertIn(f"code {code}", str(error))
            self.assertIn("b0:id", str(error))
            self.assertFalse(value.valid())
        value = hub.node("b0:id").read()
        hub.dispatch()
        self.assertEqual((value, stub.taken), (7, 1))

    def test_words_that_are_no_reply(self):
        wrong = [
            read_done(7, after=1),
            read_done(7, kind=1),
            read_done(7, count=2),
            read_done(7, info=4),
            replied(transaction_header(0, READ, 1, 0)),
            replied(),
            replied(0, other=1),
            lambda board, *_: board.to_bytes(4, "big") + bytes(4) + b"\0\0\0\1",
        ]
        stub = Stub(self, [*wrong, read_done(7)])
        hub = self.stub_hub(stub)
        for number in range(len(wrong)):
            value = hub.node("b0:id").read()
            error = self.raises(Garbled, hub.dispatch)
            self.assertIn("may have been executed", str(error), f"reply {number}")
            self.raises(Garbled, value.value)
        value = hub.node("b0:id").read()
        hub.dispatch()
        self.assertEqual(value, 7)

    def test_transaction_identifiers_begin_at_random(self):
        """Two hubs are at one board, and one is a packet behind: what the board kept for the other one is answered to
        its packet. That reply is not believed, so that no write is `done` that was not executed."""
        port = self.start_board()
        text = board_text(port=port, wait=50)
        # the lock of a board would refuse the second hub
        with unittest.mock.patch.dict(os.environ, IPBUS_SHARE="1"):
            hubs = [self.hub(self.serve(text)) for _ in range(2)]
        written = []
        for number in range(8):
            # 0, 1, 1, 0, 0, 1, 1, 0: a hub whose packet is executed, and the one that is behind by it
            hub = hubs[(number + 1) // 2 % 2]
            written.append(hub.node("b0:a").write(number))
            with contextlib.suppress(Garbled):
                hub.dispatch()
        self.assertEqual(len(self.executed()), 4)
        behind = [each.error for each in written[1::2]]
        # one in 4096 begins with the same number by chance
        self.assertGreater(sum(isinstance(error, Garbled) for error in behind), 2, written)
        self.assertTrue(all(each.valid() for each in written[::2]), written)
        self.assertIn("another hub", str(next(filter(None, behind))))

    def test_bus_errors_stand_in_their_values(self):
        hub = self.hub(self.serve())
        fixed, after = hub.node("b0:fixed").write(1), hub.node("b0:count").read()
        error = self.raises(BusError, hub.dispatch)
        self.assertEqual((error.code, error.done), (5, 0))
        self.assertIn("b0:fixed", str(error))
        self.raises(BusError, fixed.value)
        self.raises(Skipped, after.value)
        again = hub.node("b0:count").read()
        hub.dispatch()
        self.assertEqual(again, 7)
        self.raises(Skipped, after.value)

    def test_a_board_that_is_another(self):
        serving = self.serve()
        self.hub(serving, check={"b0:id": 0xABCD}).dispatch()
        with self.assertRaises(WrongBoard) as caught:
            Hub(serving.file, HOST, serving.port, check={"b0:id": 1})
        self.assertIn("b0:id shows 0x0000abcd where 0x00000001", str(caught.exception))


class Threads(Case):
    def test_two_threads_and_one_hub(self):
        """400 sums of two threads: each is done once, and each thread is told the words before."""
        hub = self.hub(self.serve())
        count = hub.node("b0:count")
        before: list[int] = []
        errors: list[BaseException] = []

        def work() -> None:
            try:
                for _ in range(200):
                    value = count.rmw_sum(1)
                    hub.dispatch()
                    before.append(int(value))
            except BaseException as error:
                errors.append(error)

        threads = [threading.Thread(target=work) for _ in range(2)]
        for thread in threads:
            thread.start()
        for thread in threads:
            thread.join()
        self.assertEqual(errors, [])
        self.assertEqual(sorted(before), list(range(7, 407)))

    def test_a_bad_network(self):
        """Sums over a network that loses, repeats and delays: each is done once."""
        port = self.start_board("--seed", 7)
        hub = self.hub(self.serve(board_text(port=port, wait=40)))
        count = hub.node("b0:count")
        values = []
        for _ in range(40):
            values += [count.rmw_sum(1) for _ in range(3)]
            hub.dispatch()
        self.assertEqual(values, list(range(7, 127)))


if __name__ == "__main__":
    unittest.main()
