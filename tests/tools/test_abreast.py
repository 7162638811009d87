"""tools/abreast.py: the parts of a text that are made by processes abreast."""
import os
import pathlib
import unittest
import unittest.mock

from tools import runs, abreast


class Abreast(unittest.TestCase):
    def test_bounds(self):
        """They follow one another, each a multiple but for the last; a short text is one part, and no text has none."""
        with unittest.mock.patch.object(os, "sched_getaffinity", lambda process: range(4)):
            for count in (1, 49, abreast.LEAST, 2 * abreast.LEAST + 7, 999999):
                bounds = abreast.bounds_of(count, 50)
                self.assertEqual([low for low, _ in bounds] + [count], [0] + [high for _, high in bounds])
                self.assertTrue(all(low % 50 == 0 for low, _ in bounds))
                self.assertEqual(len(bounds), min(4, max(1, count // abreast.LEAST)))
            self.assertEqual(abreast.bounds_of(0, 50), [])

    def test_made(self):
        """The parts come in their order, the first from this process and each other from one of its own."""
        bounds = [(0, 3), (3, 6), (6, 8)]
        text = "".join(abreast.made(lambda low, high: ("%d %d\n" % (at, os.getpid()) for at in range(low, high)), bounds))
        lines = [line.split(" ") for line in text.splitlines()]
        self.assertEqual([line[0] for line in lines], [str(at) for at in range(8)])
        processes = [{line[1] for line in lines[low:high]} for low, high in bounds]
        self.assertEqual(processes[0], {str(os.getpid())})
        self.assertEqual((list(map(len, processes)), len(set.union(*processes))), ([1, 1, 1], 3))

    def test_a_part_that_fails(self):
        def make(low, high):
            if low:
                os._exit(3)
            yield "first\n"

        with self.assertRaisesRegex(runs.Fault, "ended early"):
            list(abreast.made(make, [(0, 1), (1, 2), (2, 3)]))
        self.assert_no_children()

    def test_nobody_reads_the_rest(self):
        """Processes that are still at it are ended."""
        def make(low, high):
            while True:
                yield "%d\n" % low

        parts = abreast.made(make, [(0, 1), (1, 2)])
        self.assertEqual(next(parts), "0\n")
        parts.close()
        self.assert_no_children()

    def setUp(self):
        self.before = self.children()

    def assert_no_children(self):
        """None of those that came in this test is there."""
        self.assertLessEqual(self.children(), self.before)

    @staticmethod
    def children():
        return {child for path in pathlib.Path("/proc/self/task").glob("*/children") for child in path.read_text().split()}
