"""`mbms_rx` over random traces: what it prints and stores is what a plain machine over lists does.

MBMS_TRACES gives another number of traces than 300.
"""

import os
import random
import unittest

from support import random_sessions, reference
from support.programs import ProgramTest, receive_words

TRACES = int(os.environ.get("MBMS_TRACES", "300"))


def records_of(trace):
    place = 0
    while place < len(trace):
        end = place + 8 + int.from_bytes(trace[place + 6 : place + 8], "big")
        yield trace[place:end]
        place = end


class RandomSessions(ProgramTest):
    def received(self, trace):
        for name in os.listdir(self.folder):
            os.remove(os.path.join(self.folder, name))
        ended = self.called(receive_words(), trace)
        files = {}
        for name in os.listdir(self.folder):
            with open(os.path.join(self.folder, name), "rb") as file:
                files[int(name)] = file.read()
        return ended.status, ended.lines.splitlines() + ended.told.splitlines(), files

    def is_same(self, trace):
        return self.received(trace) == reference.received(trace)

    def shortest(self, trace):
        """The trace without each record that isn't needed for the two to differ."""
        records = list(records_of(trace))
        for place in reversed(range(len(records))):
            others = records[:place] + records[place + 1 :]
            if not self.is_same(b"".join(others)):
                records = others
        return b"".join(records)

    def test_random_traces(self):
        read = 0
        for seed in range(TRACES):
            trace = random_sessions.trace_of(random.Random(seed))
            try:
                if not self.is_same(trace):
                    trace = self.shortest(trace)
                    found, wanted = self.received(trace), reference.received(trace)
                    self.fail(f"trace {seed}, {trace.hex()}: found {found!r:.3000}, wanted {wanted!r:.3000}")
                read += 1
            except reference.Unread:
                continue
        # The reference reads nearly all texts of these traces.
        self.assertGreaterEqual(read, TRACES * 95 // 100)


if __name__ == "__main__":
    unittest.main()
