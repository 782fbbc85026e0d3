"""A dispatch of 1,000 reads goes in as few packets as fit. How long it takes is measured by `bench/python_client`."""

import unittest

from support import Case

READS, DISPATCHES = 1_000, 3


class FewPackets(Case):
    def test_of_many_reads(self):
        serving = self.serve(count=1)
        hub = self.hub(serving)
        node = hub.node("b0:count")
        for _ in range(DISPATCHES):
            values = [node.read() for _ in range(READS)]
            hub.dispatch()
            self.assertEqual(values, [7] * READS)
        hub.close()
        # a packet of 368 words has room for 183 reads
        places = serving.end()[-1].split()
        self.assertEqual(int(places[3]), DISPATCHES * -(-READS // 183))


if __name__ == "__main__":
    unittest.main()
