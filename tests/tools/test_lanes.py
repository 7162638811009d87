"""tools/program/lanes.py: the longest chains of crates come first, by two processes a proof, and no more run than there are processors."""
import contextlib
import os
import threading
import types
import unittest
import unittest.mock

from tools.program import lanes

# Crates, each with those that it stands on, all of them, and its lines: `low`, `mid` and `top` are the longest chain.
CRATES = {"low": ((), 100), "side": ((), 90), "small": ((), 10), "mid": (("low",), 100), "top": (("low", "mid", "small"), 100)}
MEMORY = 1 << 30


class Machine:
    """Tasks as `rt` makes them, which note what runs while they run; and a toolchain with so many processors."""

    def __init__(self, processors, memory=64 * MEMORY):
        self.turn, self.running, self.seen = threading.Lock(), {}, []
        self.rt = types.SimpleNamespace(processors=lambda: processors, free=lambda: memory, ending=contextlib.nullcontext,
                                        in_lanes=lambda tasks: "as rt does it")

    def call(self, key, given, processes, waits):
        with self.turn:
            self.running[key] = processes
            self.seen.append((key, processes, dict(self.running)))
        missing = [it for it in waits if it not in given]
        with self.turn:
            del self.running[key]
        return not missing

    def tasks(self, tested=()):
        tasks = {}
        for name, (below, lines) in CRATES.items():
            waits = [(it, "proof") for it in below]
            for kind, work in (("proof", lines), ("tests", lines * (name in tested))):
                key = name, kind
                tasks[key] = waits, work, MEMORY, lambda given, jobs, key=key, waits=waits: self.call(key, given, jobs, waits)
        return tasks

    def run(self, tested=()):
        with unittest.mock.patch.dict(os.environ):
            os.environ.pop("RT_JOBS", None)
            return lanes.chain_first(self.rt)(self.tasks(tested))

    def processes(self):
        return {key: processes for key, processes, _ in self.seen}


class Sharing(unittest.TestCase):
    def test_the_chain(self):
        tasks = Machine(4).tasks()
        work = lanes.work_from(tasks)
        lines = {name: work[name, "proof"] % lanes.OF_ITSELF for name in ("low", "mid", "side", "small")}
        self.assertEqual(lines, {"low": 300 % lanes.OF_ITSELF, "mid": 200, "side": 90, "small": 110})
        self.assertEqual(work["low", "proof"], 300 + 3 * lanes.OF_ITSELF)
        self.assertEqual(lanes.chains_of(tasks), {("low", "proof"), ("mid", "proof"), ("top", "proof")})

    def test_many_small_crates(self):
        """Two crates that stand on one another take longer than one with a few lines more."""
        chain = {"low": ((), 100), "one": (("low",), 150), "first": (("low",), 50), "second": (("low", "first"), 50)}
        with unittest.mock.patch.dict(CRATES, chain, clear=True):
            self.assertEqual(lanes.chains_of(Machine(4).tasks()), {(name, "proof") for name in ("low", "first", "second")})

    def test_what_stands_beside_a_chain(self):
        """The next of a chain waits for each crate that it stands on, so one beside the chain belongs to it if it would end later."""
        for lines, also in ((0, ()), (500, ()), (700, ("beside",)), (1300, ("beside",))):
            crates = {"low": ((), 100), "next": (("low",), 1500), "beside": (("low",), lines), "top": (("next", "beside"), 100)}
            with unittest.mock.patch.dict(CRATES, crates, clear=True):
                self.assertEqual(lanes.chains_of(Machine(4).tasks()), {(name, "proof") for name in ("low", "next", "top", *also)})

    def test_what_tests_wait_for(self):
        """The chains are those to the program and to the library for C, however few lines they have, and what they stand on comes before
        what has more lines after it."""
        with unittest.mock.patch.dict(CRATES, {"mme_c": (("low",), 1), "mme": (("low", "small"), 1)}):
            tasks = Machine(4).tasks()
            self.assertEqual(lanes.chains_of(tasks), {(name, "proof") for name in ("low", "small", "mme_c", "mme")})
            self.assertEqual([key[0] for key in lanes.Sharing(tasks, 4, MEMORY).left[:2]], ["low", "small"])

    def test_each_task_once_with_what_it_waits_for(self):
        machine = Machine(4)
        given = machine.run(tested=("side",))
        self.assertEqual(given, dict.fromkeys(machine.tasks(), True))
        self.assertEqual(len(machine.seen), len(given))

    def test_two_processes_for_the_chain(self):
        machine = Machine(4)
        machine.run()
        processes = machine.processes()
        self.assertTrue(all(processes[name, "proof"] >= lanes.OF_CHAIN for name in ("low", "mid", "top")), processes)
        self.assertEqual(processes["side", "proof"], 1)

    def begun_beside(self, processes):
        """What begins of two chains, and with how many processes, beside a proof that has this many."""
        chains = {"side": ((), 90), "mme": ((), 50), "mme_c": ((), 40)}
        with unittest.mock.patch.dict(CRATES, chains, clear=True):
            sharing = lanes.Sharing(Machine(4).tasks(), 4, 64 * MEMORY)
        sharing.left.remove(("side", "proof"))
        sharing.running["side"] = ("side", "proof"), processes
        begun = {}
        for key, count in sharing.begun():
            if count:
                sharing.running[key] = key, count
                begun[key[0]] = count
        return begun

    def test_two_chains(self):
        """A proof of a chain waits for two processors, and begins with one while another of a chain runs."""
        self.assertEqual([self.begun_beside(processes) for processes in range(5)],
                         [{"mme": 2, "mme_c": 2}, {"mme": 2, "mme_c": 1}, {"mme": 2}, {}, {}])

    def test_what_a_chain_waits_for(self):
        """What the next of a chain waits for begins by the chain's processors, where nothing of the chain can begin."""
        crates = {"low": ((), 900), "beside": ((), 10), "other": ((), 20), "mme": (("low", "beside"), 50)}
        with unittest.mock.patch.dict(CRATES, crates, clear=True):
            sharing = lanes.Sharing(Machine(4).tasks(), 4, 64 * MEMORY)
        self.assertNotIn(("beside", "proof"), sharing.chain)
        sharing.left.remove(("low", "proof"))
        sharing.given["low", "proof"] = True
        sharing.left.remove(("other", "proof"))
        sharing.running["other"] = ("other", "proof"), 2
        self.assertIn((("beside", "proof"), 2), [*sharing.begun()])

    def test_no_more_than_processors(self):
        for processors in (4, 8):
            machine = Machine(processors)
            machine.run(tested=("low", "side", "mid"))
            busy = [sum(count for (_, kind), count in running.items() if kind == "proof") for _, _, running in machine.seen]
            self.assertLessEqual(max(busy), processors)

    def test_without_memory_one_after_the_other(self):
        machine = Machine(4, memory=int(1.5 * MEMORY))
        self.assertTrue(all(machine.run().values()))
        proofs = [(key, processes) for key, processes in machine.processes().items() if key[1] == "proof"]
        self.assertEqual(proofs, [(key, 1) for key, _ in proofs])
        self.assertTrue(all(len([it for it in running if it[1] == "proof"]) <= 1 for _, _, running in machine.seen))

    def test_as_the_toolchain_does_it(self):
        self.assertEqual(Machine(2).run(), "as rt does it")
        machine = Machine(4)
        with unittest.mock.patch.dict(os.environ, RT_JOBS="1"):
            self.assertEqual(lanes.chain_first(machine.rt)(machine.tasks()), "as rt does it")
        machine.rt.in_lanes = lambda tasks, more: "another form"
        self.assertIs(lanes.chain_first(machine.rt), machine.rt.in_lanes)


if __name__ == "__main__":
    unittest.main()
