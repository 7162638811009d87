"""How `rt ci` shares the processors among what it has to do: the longest chains of crates first, each proof of them by two processes.

`rt` begins a proof of such a chain by as many processes as no other proof waits for, which is mostly one: on four processors the chain
then takes longer than all the work does. Here two processors are kept for the chains that end in the program and in the library for C,
whose tests come last, as long as any of them is left; and the others take what else can begin, the one with the most work after it
first. What has nothing to do, such as the tests of a crate without tests, takes no processor. On fewer processors, and where RT_JOBS
says how many processes there are to be, it is as `rt` does it.
"""
import concurrent.futures
import functools
import inspect
import os

from tools.program import record

# The processes of a proof of a chain, the most of any other, and the fewest processors that chains are first on.
OF_CHAIN, MOST, FEWEST = 2, 4, 4
# The share of what is free that tasks may take of memory, and what each further process of a proof takes of its memory.
SHARE, OF_PROCESS = 0.85, 0.6
PROOFS, FILLS = ("proof", "tests"), ("seed", "edits")
# What a proof takes besides its lines, in lines: it reads the libraries below, and makes its own.
OF_ITSELF = 300
# The crates whose chains come first, and what takes its time once they are proved, in lines: compilers, and tests that wait for that.
AFTER = {record.NAME: 13000, record.LIBRARY: 10000}


def work_of(tasks, key):
    """Returns how much there is to do in a task."""
    return tasks[key][1] + OF_ITSELF * (key[1] == "proof")


def work_from(tasks):
    """Returns for each task how much there is to do from it on, along the longest way; a task comes after those that it waits for."""
    left = {key: AFTER.get(key[0], 0) * (key[1] == "proof") for key in tasks}
    for key in reversed([*tasks]):
        left[key] += work_of(tasks, key)
        for it in tasks[key][0]:
            left[it] = max(left[it], left[key])
    return left


def chains_of(tasks):
    """Returns the proofs of the longest chain to each of those crates, or of the longest of all where there is none of them; and with
    them what the next of a chain also waits for, where by one process it would end after the chain's own."""
    done = {}
    for key in tasks:
        done[key] = work_of(tasks, key) + max((done[it] for it in tasks[key][0]), default=0)
    proofs = [key for key in tasks if key[1] == "proof"]
    chains = set()
    for key in [key for key in proofs if key[0] in AFTER] or [max(proofs, key=done.get)]:
        while key:
            chains.add(key)
            below = tasks[key][0]
            key = max(below, key=done.get, default=None)
            chains.update(it for it in below if done[it] + work_of(tasks, it) > done[key])
    return chains


class Sharing:
    """Tasks that are left and those that run, by the names that `rt` gives them. A task is what it waits for, its work in lines, its
    memory, and a call with what was given and how many processes it may use."""

    def __init__(self, tasks, processors, memory):
        work = work_from(tasks)
        self.tasks, self.processors, self.memory = tasks, processors, memory
        self.chain = chains_of(tasks)
        self.left = sorted(tasks, key=lambda it: (it[1] in FILLS, -work[it]))
        self.running, self.given = {}, {}

    def ready(self):
        return [it for it in self.left if all(below in self.given for below in self.tasks[it][0])]

    def awaited(self):
        """What the next proofs of the chains wait for, where none of the chains can begin or runs: it is then of the chains too."""
        if self.is_under_way() or self.chain.intersection(self.ready()):
            return set()
        missing = [[it for it in self.tasks[key][0] if it not in self.given] for key in self.left if key in self.chain]
        return {it for waits in missing if not self.chain.intersection(waits) for it in waits}

    def is_idle_task(self, key):
        """Whether there is nothing to do: the tests of a crate without tests."""
        return key[1] == "tests" and not self.tasks[key][1]

    def idle(self):
        """The processors that nothing runs on."""
        return self.processors - sum(processes for _, processes in self.running.values())

    def is_under_way(self):
        """Whether a proof of a chain runs."""
        return any(key in self.chain for key, _ in self.running.values())

    def kept_free(self):
        """The processors that are kept for the chains."""
        return 0 if self.is_under_way() or not self.chain.intersection(self.left) else OF_CHAIN

    def fits(self, key, processes):
        """Whether there is memory for a task beside those that run; where none runs, there is for one process."""
        taken = sum(self.memory_of(*it) for it in self.running.values())
        return taken + self.memory_of(key, processes) <= self.memory or not self.running and processes == 1

    def memory_of(self, key, processes):
        return self.tasks[key][2] * (1 + OF_PROCESS * (processes - 1))

    def processes_of(self, key, others):
        """How many processes a task that is ready begins with, beside this many other proofs; 0 where it waits. A proof of a chain
        waits for its processors, unless another of a chain runs."""
        idle = self.idle() if key in self.chain else self.idle() - self.kept_free()
        if key in self.chain:
            fewest = max(1, min(OF_CHAIN, idle)) if self.is_under_way() else OF_CHAIN
            wanted = max(fewest, min(MOST, idle // (1 + others)))
        else:
            wanted = max(1, min(MOST, idle // (1 + others))) if key[1] in PROOFS else 1
        if idle < wanted:
            return 0
        return next((it for it in range(wanted, 0, -1) if self.fits(key, it)), 0)

    def begun(self):
        """Yields each task that begins now, and its processes."""
        is_short = False
        self.chain |= self.awaited()
        for key in self.ready():
            if is_short and key[1] in FILLS:
                # (a proof waits for memory, which edits would take again and again)
                return
            others = sum(it[1] in PROOFS and it != key and not self.is_idle_task(it) for it in self.ready())
            processes = 0 if self.is_idle_task(key) else self.processes_of(key, others)
            if processes or self.is_idle_task(key):
                self.left.remove(key)
                yield key, processes
            is_short = is_short or not processes and self.idle() > 0 and key[1] in PROOFS


def in_lanes(rt, tasks):
    """Runs tasks side by side and returns what each gave, as `in_lanes` of `rt` does."""
    sharing = Sharing(tasks, rt.processors(), SHARE * rt.free())
    with rt.ending(), concurrent.futures.ThreadPoolExecutor(sharing.processors + len(tasks)) as pool:
        while sharing.left or sharing.running:
            for key, processes in sharing.begun():
                running = pool.submit(tasks[key][3], sharing.given, max(1, processes))
                sharing.running[running] = key, processes
            done = concurrent.futures.wait(sharing.running, return_when=concurrent.futures.FIRST_COMPLETED).done
            for it in done:
                sharing.given[sharing.running.pop(it)[0]] = it.result()
    return sharing.given


def chain_first(rt):
    """`in_lanes` of `rt`, by which the longest chains come first; as it is where it has another form than the one known here."""
    own = rt.in_lanes
    if list(inspect.signature(own).parameters) != ["tasks"] or not {"processors", "free", "ending"} <= set(vars(rt)):
        return own

    @functools.wraps(own)
    def shared(tasks):
        if os.environ.get("RT_JOBS", "") or rt.processors() < FEWEST:
            return own(tasks)
        return in_lanes(rt, tasks)

    return shared
