#!/usr/bin/env python3
"""What tools tell of a run from a snapshot on, over the shared object that SOIZKADUR_LIBRARY names: the same as of the whole run,
but for what lies before the snapshot, which is said to. Closes with 'N passed, M failed'.

What is told of whole runs, and that each answer is one that is owed, is tested in tests/tools/test_explain.py.
"""
import argparse
import contextlib
import datetime
import html
import io
import json
import pathlib
import re
import runpy
import signal
import struct
import sys
import tempfile
import unittest

sys.dont_write_bytecode = True

TOP = pathlib.Path(__file__).resolve().parent.parent.parent
if __name__ == "__main__":
    sys.path[:1] = [str(TOP), str(TOP / "python")]
import soizkadur
from reference import lte, phones
from tests.hostile import fuzz, laboratory
from tests.tools import failures, fronted, remembering, test_remembered, tools
from tests.tools.test_explain import EXPLAIN, SCRIPTS
from tests.tools.test_front_page import Spoken
from tests.tools.test_front_reasons import REASON
from tools import captures, runs
from tools.charting.rows import rows_of
from tools.eps import macs, story
from tools.eps.remembered import Remembered
from tools.fronting import playing, rest, snapshots
from tools.fronting.segments import older_segments

CAPTURE = tools.module("tools/capture")
BEFORE = "before the snapshot"
SINCE_BEFORE = "since " + BEFORE
# Of what is told of a message, that which may be told instead where what it is about lies before: a count that is below the last
# one may have been used or not, and of spent vectors neither the keys nor the RES are known.
INSTEAD = {"COUNT_USED": "COUNT_PASSED", "OTHER_KEY": "UNKNOWN_KEY", "WRONG_MAC": "UNKNOWN_KEY", "OTHER_RES": "WRONG_RES"}
OF_THE_REASON = "why", "reason", "facts", "lines", "mark"
EVERY = 40  # of random events, after which a snapshot is made, and how many after it are told
SESSIONS, EVENTS = 4, 1000
IMSIS = ["00101%010d" % number for number in range(1, 10)]
TIME = "# time "
BEGUN = datetime.datetime(2026, 1, 2, 3, 4, 5)
NEVER = "--snapshot", "1440,4096"  # but at an orderly end
KEY = b"a key of sixteen or more octets"


def as_before(said, cut, hows):
    """What is told, in JSON, as it is told where the lines up to one are gone: in their place it is said that they lie before.
    `hows` are the ways in which phones had come to be deregistered by then."""
    made = {**said, "role": re.sub(r"of line (\d+)", lambda found: before_or(found, cut, "of line %d"), said["role"])}
    if "why" not in said:
        return made
    made["lines"] = [line - cut if line > cut else None for line in said["lines"]]
    made["facts"] = dict(said["facts"])
    reason = re.sub(r"at line (\d+)", lambda found: before_or(found, cut, "at line %d"), said["reason"])
    if "line" in made["facts"]:
        line = made["facts"]["line"]
        made["facts"]["line"] = line - cut if line > cut else None
        if line <= cut and "how" in made["facts"]:
            made["facts"]["how"], reason = None, reason.partition(BEFORE)[0] + BEFORE
    for how in hows:
        reason = reason.replace("(%s)" % how, "(%s)" % SINCE_BEFORE)
        made["facts"] = {name: fact.replace("(%s)" % how, "(%s)" % SINCE_BEFORE) if isinstance(fact, str) else fact
                         for name, fact in made["facts"].items()}
    return {**made, "reason": reason}


def before_or(found, cut, words):
    line = int(found[1])
    return words % (line - cut) if line > cut else BEFORE


def is_told(said, found, cut, hows):
    """Whether what is told of a run from a snapshot on is what is told of the whole one."""
    wanted = as_before(said, cut, hows)
    plain = as_before(said, cut, ())
    if found in (wanted, plain):
        return True
    if INSTEAD.get(said.get("why")) != found.get("why") or found.get("why") is None:
        return False
    is_before = said["facts"].get("line", 0) <= cut
    rest_of = lambda told: {name: value for name, value in told.items() if name not in OF_THE_REASON}
    return is_before and rest_of(wanted) == rest_of(found)


COUNT_BEFORE = re.compile(r"( \(replayed\))?((: )?count \d+ was accepted before the snapshot)?")
COUNT_PASSED = re.compile(r"(: )?its count \d+ is below \d+, which was accepted (before the snapshot|at line \d+)")


def is_said(word, found, cut, hows):
    """Whether words from a snapshot on are those of the whole run, where the lines up to one are gone; `hows` as above."""
    def moved(line):
        is_before = int(line[1]) <= cut
        end = " " if line[2] and line[2].endswith(" ") else ""
        return BEFORE + end if is_before else "at line %d%s" % (int(line[1]) - cut, line[2] or "")

    wanted = plain = re.sub(r"at line (\d+)(: [^(\n]*)?", moved, word)
    for how in hows:
        wanted = wanted.replace("(%s)" % how, "(%s)" % SINCE_BEFORE)
    return found in (wanted, plain) or BEFORE in plain + found and COUNT_BEFORE.sub("", plain) == COUNT_PASSED.sub("", found)


def objects(told, imsis):
    """What is told of an event, in JSON."""
    return [entry.object(imsis) for entry in EXPLAIN.entries_of([told])]


class Played:
    """A run of the library by its trace: of each event its answers, what is told of it, and the snapshot after it where one is
    made; and how phones had come to be deregistered by then."""

    def __init__(self, trace, every=1):
        self.trace, self.saved, self.pairs, self.told, self.hows = trace, {}, [], [], {}
        teller = story.Teller(trace)
        with soizkadur.Mme.from_lines(trace.head) as mme:
            for place, event in enumerate(trace.events):
                pairs = [(0, runs.answer_of(text.encode())) for text in mme.answers(runs.event_text(event))]
                self.pairs.append(pairs)
                self.told.append(objects(teller.told(event, pairs), trace.imsis))
                if place % every == every - 1:
                    self.saved[place] = mme.save()
                    self.hows[place] = {each.how for each in teller.world.subscribers if each.phase.value[0] == "Deregistered"}
        self.strayed = teller.strayed

    def differences(self, place, most=None):
        """What is told otherwise from a snapshot on, of so many events."""
        trace, cut = self.trace, self.trace.events[place].line
        held = Remembered(self.saved[place])
        assert held.imsis == trace.imsis, (held.imsis, trace.imsis)
        teller = story.Teller(runs.Trace((), held.imsis, trace.events, rest.Rest(held, (), "", b"")))
        until = len(trace.events) if most is None else place + 1 + most
        for at, event in enumerate(trace.events[place + 1:until], place + 1):
            moved = event._replace(line=event.line - cut)
            found = objects(teller.told(moved, self.pairs[at]), trace.imsis)
            yield from unlike(self.told[at], found, cut, self.hows[place])


def unlike(wanted, found, cut, hows):
    """How what is told of an event isn't what is to be told, where the lines up to one are gone."""
    if len(wanted) != len(found):
        yield wanted, found
        return
    for said, instead in zip(wanted, found):
        bare = [{name: value for name, value in told.items() if name not in ("told", "line")} for told in (said, instead)]
        if bare[0] != bare[1] or said["line"] - cut != instead["line"] or len(said["told"]) != len(instead["told"]):
            yield said, instead
        for one, other in zip(said["told"], instead["told"]):
            if not is_told(one, other, cut, hows):
                yield as_before(one, cut, hows), other


class GoesOn(unittest.TestCase):
    """The model that begins at a snapshot goes on as the one that saw what came before."""

    def check(self, trace, every=1, most=None):
        """At each place of a run, or at each so many, what is told of so many events after it."""
        played = Played(trace, every)
        for place in played.saved:
            found = list(played.differences(place, most))
            self.assertEqual(found[:1], [], "after line %d, of %d" % (trace.events[place].line, len(found)))

    def test_rows(self):
        """Each row of tests/rows, after each of its events."""
        for name in tools.playable():
            with self.subTest(row=name):
                self.check(runs.read_trace((tools.ROWS / name).with_suffix(".trace").read_bytes()))

    def test_scripts(self):
        """Each script of examples/ and tests/scripts, after each third event."""
        for path in SCRIPTS.values():
            trace = runs.read_trace(path.read_bytes())
            if trace.events and len(trace.events) < EVENTS:
                with self.subTest(script=path.name):
                    self.check(trace, 3)

    @unittest.skipUnless(fronted.PROGRAM.exists(), "the program isn't built (./mme --prove)")
    def test_random(self):
        """Random events of phones that lie, after each so many."""
        for at in range(SESSIONS):
            with self.subTest(session=at):
                run = fuzz.lived("snapshots.%d" % at, EVENTS, fronted.PROGRAM)
                text = "".join(line + "\n" for line in laboratory.provisioning() + run.events)
                self.check(runs.read_trace(text.encode()), EVERY, 4 * EVERY)


class Written(test_remembered.GoesOn):
    """What is written by the formats is a snapshot to the library: it saves the same octets, and answers as is owed."""

    def check(self, trace, kept, later, areas=None, strangers=()):
        octets = remembering.snapshot(trace.network, test_remembered.CLOCK, areas or test_remembered.AREAS, kept, strangers)
        lines, answers = len(trace.lines), len(trace.answers)
        text = super().check(trace, kept, later, areas, strangers)
        with soizkadur.Mme.restored(octets) as mme:
            self.assertEqual(mme.save(), octets)
            self.assertEqual([answer for line in trace.lines[lines:] for answer in mme.answers(line)], trace.answers[answers:])
        return text


# --- A log with snapshots, and the tools over it ---


def scenario():
    """The lines of a log, its head apart: phones in many states, strangers, and lines that are given while it runs; each with a
    time of day before it."""
    trace = phones.Trace()
    made = [phones.Phone(trace, slot, [phones.Vector.made("telling %d.%d" % (slot, at)) for at in range(3)]) for slot in range(8)]
    one, two = phones.Station(0), phones.Station(1, 2, 1, 0x201)
    head = phones.Trace()
    head.provision(made[:7])
    late = phones.Trace()
    late.provision(made)
    for station in (one, two):
        trace.set_up(station)
    idle, connected, moved, gone, paged, detached, begun, given = made
    for at, phone in enumerate(made[:6], 1):
        phone.attaches(one, at, pdn_type=1 + 2 * (at % 2), attach_type=1 + at % 2, information=bool(at % 2))
        last = trace.lines[-1]
        trace.say("tick 1")
        if phone is connected:
            replayed = last
    for phone in (idle, gone, paged):
        phone.is_released()
    moved.switches_path(two, 3)
    trace.say("cancel " + gone.imsi)
    detached.detaches()
    paged.has_data_waiting([one, two])
    begun.asks_to_attach(one, 7)
    trace.say("data " + IMSIS[8])
    esm = lte.pdn_connectivity_request(1, 1, False)
    foreign = lte.attach_request(1, bytes.fromhex("f602f83900010212345678"), begun.capability, esm)
    trace.hear(two, lte.initial_ue_message(trace.network, two, 9, foreign))
    trace.say("tick 5")
    further = [line for line in late.lines if given.imsi in line]
    for line in further:
        trace.say(runs.FURTHER + line)
    given.attaches(two, 8)
    trace.say(replayed)
    early, forged = (connected.secured(2, count, lte.UP, lte.ATTACH_COMPLETE) for count in (0, 9))
    for nas in (early, failures.turned(forged, 3)):
        trace.hear(one, lte.uplink_nas(trace.network, one, connected.m, connected.b, nas))
    paged.asks_for_service(one, 5)
    idle.updates_from_idle(two, 11, 1)
    trace.say("tick 6")
    idle.protected_down(b"")
    trace.hear(one, lte.uplink_nas(trace.network, one, begun.m, begun.b, bytes.fromhex("075c14")))
    trace.hear(one, lte.release_request(detached.m, 6, lte.USER_INACTIVITY))
    trace.hear(two, lte.uplink_nas(trace.network, two, (1 << 31) + (1 << 24) + 9, 9, lte.identity_response(
        lte.imsi_identity(gone.imsi))))
    idle.completes_update(from_idle=True)
    connected.detaches()
    trace.say("show " + moved.imsi)
    moved.is_released()
    trace.say("lost 1")
    trace.say("tick 4000")
    trace.say("show " + given.imsi)
    return head.lines, list(timed(trace.lines))


def timed(lines):
    """Lines of a log, each after its time of day, a millisecond after the one before and the seconds of ticks."""
    clock = BEGUN
    for line in lines:
        yield TIME + clock.isoformat(" ", "milliseconds")
        yield line
        word, _, count = line.partition(" ")
        clock += datetime.timedelta(seconds=int(count) if word == "tick" else 0, milliseconds=1)


def log_in(folder, head, lines, places, key=None):
    """Writes a log of two segments, of which the first, with its head, is gone, with a snapshot after so many lines of the second,
    of each of these; its path."""
    log, text, counted, made = folder / "log", b"", b"", ""
    begin, known = b"# segment 2, begun now\n", snapshots.Known([], [], [], set())
    with soizkadur.Mme.from_lines(head) as mme:
        for at, line in enumerate(lines):
            if at in places:
                number, mark = places.index(at) + 1, "mark %d" % at
                about = {"number": number, "mark": mark, "made": made, "counts": [2, len(counted)], "happened": [2, len(text)],
                         "up": [], "begun": 0, "provisioning": {}, "used": {}, "segments": {}}
                counted += snapshots.mark_line(number, mark)
                with open(snapshots.name_of(str(log), number), "wb") as file:
                    snapshots.write(snapshots.InFile(file.fileno()), about, known, mme.parts(), key)
            text, counted = text + line.encode() + b"\n", counted + line.encode() + b"\n"
            made = line.removeprefix(TIME) if line.startswith(TIME) else made
            give(mme, line)
    log.write_bytes(begin + text)
    (folder / "log.counts").write_bytes(begin + counted)
    return log


def give(mme, line):
    """Gives an MME a line of a log."""
    if line.startswith(runs.FURTHER):
        word, imsi, *fields = line.removeprefix(runs.FURTHER).split(" ")
        octets = list(map(bytes.fromhex, fields))
        if word == "sub":
            mme.add_live(imsi, *(int.from_bytes(field, "big") for field in octets))
        else:
            mme.give_live(imsi, *octets)
    elif not line.startswith("#"):
        mme.answers(line)


def said_by(act):
    """What comes of an act, and what it says."""
    with contextlib.redirect_stderr(io.StringIO()) as told:
        made = act()
    return made, told.getvalue()


def given(log, **words):
    """The words of a command line."""
    return argparse.Namespace(**{"trace": str(log), "answers": None, "mme": None, "after": None, "snapshot_key": None, **words})


class OfALog(tools.InFolder):
    """The tools over a log whose first segment is gone, from a snapshot after each of its lines on."""

    @classmethod
    def setUpClass(cls):
        cls.head, cls.lines = scenario()
        more = [line.removeprefix(runs.FURTHER) for line in cls.lines if line.startswith(runs.FURTHER)]
        subs = [line for line in (*cls.head, *more) if not line.startswith("vec")]
        cls.whole_head = subs + [line for line in (*cls.head, *more) if line.startswith("vec")]
        plain = ["# given" if line.startswith(runs.FURTHER) else line for line in cls.lines]
        cls.octets = "".join(line + "\n" for line in cls.whole_head + plain).encode()
        cls.whole = cls.run_of(cls.octets)
        cls.places = range(2, len(cls.lines), 2)

    @staticmethod
    def run_of(octets):
        """The run of a whole trace, by the library."""
        trace = runs.read_trace(octets)
        steps = runs.started(trace)
        with soizkadur.Mme.from_lines(trace.head) as mme:
            for step in steps:
                step.answers += [(step.second, runs.answer_of(text.encode())) for text in mme.answers(runs.event_text(step.event))]
        return story.told_run(trace, steps)

    def log_at(self, *places, key=None):
        return log_in(self.folder, self.head, self.lines, list(places), key)

    def cut(self, place):
        """The line of the whole trace before which a snapshot stands."""
        return len(self.whole_head) + place

    def later(self, place):
        """What is told of the whole trace after it."""
        return [each for each in self.whole.told if each.event.line > self.cut(place)]

    def hows(self, place):
        """How phones had come to be deregistered by then."""
        trace = runs.Trace(self.whole.trace.head, self.whole.trace.imsis, [])
        teller = story.Teller(trace)
        for event in self.whole.trace.events:
            if event.line <= self.cut(place):
                teller.owed(event)
        return {each.how for each in teller.world.subscribers if each.phase.value[0] == "Deregistered"}

    def test_whole(self):
        """The run is as it should be: no answer strays, and there is much to tell."""
        self.assertEqual([each.otherwise for each in self.whole.told if each.otherwise], [])
        whys = {telling.why.name for each in self.whole.told for telling in each.tellings if telling.why}
        self.assertGreater(len(whys), 6, whys)

    def test_explain(self):
        """What is told of each event after it, in JSON."""
        for place in self.places:
            with self.subTest(place=place):
                run, said = said_by(lambda: rest.run_of(given(self.log_at(place))))
                self.assertIn("is played from %s.snapshot.000001 on: line 1 is the first after it" % (self.folder / "log"), said)
                found = [objects(each, run.trace.imsis) for each in run.told]
                wanted = [objects(each, self.whole.trace.imsis) for each in self.later(place)]
                self.assertEqual(len(found), len(wanted))
                hows = self.hows(place)
                for one, other in zip(wanted, found):
                    self.assertEqual(list(unlike(one, other, self.cut(place), hows)), [])
                for one, other in zip(self.whole.world.subscribers, run.world.subscribers, strict=True):
                    self.assertTrue(is_said(one.phase_text(), other.phase_text(), self.cut(place), hows))

    def test_text(self):
        """The tool itself, its text, its text in brief and its JSON: what is told of each event."""
        place = len(self.lines) // 2 // 2 * 2
        log = self.log_at(place)
        run, _ = said_by(lambda: rest.run_of(given(log)))
        entries = EXPLAIN.entries_of(run.told)
        for words, text in (
                ((), "".join(EXPLAIN.text_of(entries, run.world, False))),
                (("--brief",), "".join(EXPLAIN.text_of(entries, run.world, True, True))),
                (("--json",), "".join(json.dumps(entry.object(run.trace.imsis)) + "\n" for entry in entries))):
            done = tools.ran("explain", *words, log)
            self.assertEqual((done.returncode, done.stdout.decode()), (0, text))
            self.assertIn(b"explain: %s is played from " % str(log).encode(), done.stderr)
            self.assertNotIn("\n?", text)
        brief = tools.ran("explain", "--brief", str(log) + ".counts")
        self.assertEqual((brief.returncode, brief.stdout), (0, tools.ran("explain", "--brief", log).stdout))

    def test_chart(self):
        """The rows after it are those of the whole chart, by the names of phones; the tool draws them, as a text and as SVG."""
        whole = rows_of(self.whole.trace, self.whole.steps, self.whole.told)
        for place in self.places:
            with self.subTest(place=place):
                run, _ = said_by(lambda: rest.run_of(given(self.log_at(place))))
                found = [self.parts(row, 0) for row in rows_of(run.trace, run.steps, run.told)]
                wanted = [self.parts(row, self.cut(place)) for row in whole if self.line_of(row) > self.cut(place)]
                self.are_told(wanted, found, place)
        log = self.log_at(len(self.lines) // 2)
        for words in ((), ("--svg",)):
            done = tools.ran("chart", *words, log)
            self.assertEqual(done.returncode, 0, done.stderr)
            self.assertIn(b"AUTHENTICATION FAILURE", done.stdout)

    @staticmethod
    def line_of(row):
        return int(row.where.split(" ")[-1])

    def parts(self, row, cut):
        """What a row has that isn't words, with its line as it is where those up to one are gone; and its words."""
        line = "%s %d" % (row.where.rpartition(" ")[0], self.line_of(row) - cut)
        words = [word for word in row.notes if isinstance(word, str)] + [arrow.label for arrow in row.arrows]
        others = [word for word in row.notes if not isinstance(word, str)] + [arrow[:2] for arrow in row.arrows]
        return (row.second, row.kind, row.phone and row.phone.name(), row.dropped, line, *others), ["\n".join(words)]

    def are_told(self, wanted, found, place):
        """What is found after a place is what is wanted: each what isn't words, and its words."""
        self.assertEqual([parts for parts, _ in found], [parts for parts, _ in wanted])
        for (_, words), (_, others) in zip(wanted, found):
            self.assertEqual(len(words), len(others))
            for word, other in zip(words, others):
                self.assertTrue(is_said(word, other, self.cut(place), self.hows(place)), (word, other))

    def test_capture(self):
        """The messages after it are those of the whole capture: when each was, between whom, its octets, and its comments."""
        clocks = CAPTURE.following.Clocks(self.octets)
        whole = CAPTURE.write_steps(list(self.whole.steps), self.whole.trace.imsis, self.whole.told, clocks)
        for place in self.places:
            with self.subTest(place=place):
                run, _ = said_by(lambda: rest.run_of(given(self.log_at(place))))
                clocks = CAPTURE.following.Clocks.of("", run.trace)
                writer = CAPTURE.write_steps(list(run.steps), run.trace.imsis, run.told, clocks)
                found = [self.sent(packet) for packet in writer.packets]
                wanted = [self.sent(packet) for packet in whole.packets[-len(found):]] if found else []
                self.are_told(wanted, found, place)
        place = len(self.lines) // 2
        done = tools.ran("capture", "out", self.log_at(place))
        self.assertEqual(done.returncode, 0, done.stderr)
        back = tools.ran("capture", "in", "-", given=done.stdout).stdout.decode().splitlines()
        self.assertEqual([line for line in back if line.startswith("in ")],
                         [line for line in self.lines[place:] if line.startswith("in ")])

    @staticmethod
    def sent(packet):
        """A packet: when it was, between whom, and its chunks but for acknowledgements; and its comments."""
        when, frame, comments = packet
        addresses, at, chunks = frame[26:34], 14 + 20 + 12, []
        while at < len(frame):
            kind, _, length = struct.unpack(">BBH", frame[at:at + 4])
            if kind == captures.DATA:
                chunks.append(frame[at + 16:at + length])
            elif kind != captures.SACK:
                chunks.append(kind)
            at += length + -length % 4
        return (when, addresses, chunks), comments

    def test_refused(self):
        """The newest that can be taken; where none can, or the one that is asked for, nothing is told."""
        log = self.log_at(4, 8)
        newest = pathlib.Path(snapshots.name_of(str(log), 2))
        octets = newest.read_bytes()
        damaged = octets[:-1] + bytes([octets[-1] ^ 1])
        for changed, why in ((damaged, "it is damaged or cut"), (octets[:100], "it is damaged or cut"),
                             (octets.replace(b"soizkadur snapshot 1", b"soizkadur snapshot 7", 1), "it is of version 7"),
                             (self.of_version(octets, 9), "the library doesn't take it")):
            newest.write_bytes(changed)
            for tool in (["explain"], ["chart"], ["capture", "out"]):
                with self.subTest(why=why, tool=tool):
                    done = tools.ran(*tool, log)
                    said = done.stderr.decode()
                    self.assertEqual(done.returncode, 0)
                    self.assertIn("%s isn't taken: %s" % (newest, why), said)
                    self.assertIn("is played from %s on" % snapshots.name_of(str(log), 1), said)
                    done = tools.ran(*tool, "--from", 2, log)
                    self.assertEqual((done.returncode, done.stdout), (2, b""))
                    self.assertIn("%s can't be taken: %s" % (newest, why), done.stderr.decode())
        pathlib.Path(snapshots.name_of(str(log), 1)).unlink()
        done = tools.ran("explain", log)
        self.assertEqual((done.returncode, done.stdout), (2, b""))
        self.assertIn(playing.NOT_WHOLE % (log, 2), done.stderr.decode())

    def of_version(self, octets, version):
        """A front's snapshot with an MME's of another version, sealed."""
        snapshot = snapshots.read(self.file("made", octets))
        with open(self.folder / "other", "wb") as file:
            about = {name: value for name, value in snapshot.about.items() if name not in ("by", "seal")}
            snapshots.write(snapshots.InFile(file.fileno()), about, snapshot.known, [bytes([version]) + snapshot.octets[1:]], None)
        return (self.folder / "other").read_bytes()

    def test_sealed(self):
        """One that is sealed by a key is taken with it alone."""
        log, key, other = self.log_at(4, key=KEY), self.file("key", KEY), self.file("other_key", KEY[::-1])
        for words, status, why in (((), 2, "it is sealed by a key, and this front has none"),
                                   (("--snapshot-key", other), 2, "or sealed by another key"),
                                   (("--snapshot-key", key), 0, "is played from")):
            done = tools.ran("explain", *words, log)
            self.assertEqual((done.returncode, why in done.stderr.decode()), (status, True), done.stderr)

    def test_from(self):
        """The one that is asked for, though a later one is there; and with the first segment there too."""
        log = self.log_at(4, 8)
        newest = tools.ran("explain", log).stdout
        older = tools.ran("explain", "--from", 1, log).stdout
        self.assertNotEqual(newest, older)
        done = tools.ran("explain", log, self.file("answers", ""))
        self.assertEqual((done.returncode, b"without ANSWERS and --mme" in done.stderr), (2, True))
        first = "".join(line + "\n" for line in [*self.head, "# segment 1, begun now"])
        (self.folder / "log.segment.000001").write_text(first)
        self.assertEqual(tools.ran("explain", "--from", 1, log).stdout, older)
        done = tools.ran("explain", log)
        self.assertEqual((done.returncode, b"join them by `cat`" in done.stderr), (2, True))
        for words, why in ((["--from", 1, "-"], b"--from is of a log's file"), (["--mme", "none", "--from", 1, log], b"and --mme")):
            done = tools.ran("explain", *words)
            self.assertEqual((done.returncode, why in done.stderr), (2, True), done)

    def test_segments(self):
        """What came after it may stand in several segments, of which a crash may have kept the last from its name."""
        log = self.log_at(4)
        whole = tools.ran("explain", log).stdout
        octets = log.read_bytes()
        middle = octets.index(b"\n# time", len(octets) // 2) + 1
        (self.folder / "log.segment.000002").write_bytes(octets[:middle])
        for name in ("log", "log.new"):
            log.unlink(missing_ok=True)
            (self.folder / name).write_bytes(b"# segment 3, begun now\n" + octets[middle:])
            done = tools.ran("explain", log)
            moved = lambda found: "line %d" % self.as_before(int(found[1]), octets[:middle])
            self.assertEqual((done.returncode, re.sub(r"line (\d+)", moved, done.stdout.decode())), (0, whole.decode()))
        (self.folder / "log.segment.000002").unlink()
        (self.folder / "log.new").rename(log)
        done = tools.ran("explain", log)
        told = "the segment of %s that it stands in is gone" % log in done.stderr.decode()
        self.assertEqual((done.returncode, told), (2, True), done)

    @staticmethod
    def as_before(line, first):
        """The number of a line where the line of the second segment's number isn't between."""
        return line - (line > first.count(b"\n") - 1 - 4)

    def test_a_line_that_is_wrong(self):
        """It is named by its number from the snapshot on."""
        log = self.log_at(4)
        with open(log, "ab") as file:
            file.write(b"fly 1\n")
        done = tools.ran("explain", log)
        self.assertEqual((done.returncode, done.stdout), (2, b""))
        self.assertIn("%s: line %d: no line begins with 'fly'" % (log, len(self.lines) - 4 + 1), done.stderr.decode())

    def test_refused_when_it_was_given(self):
        """A line that the MME didn't take when it was given changes nothing, and is named."""
        log = self.log_at(4)
        with open(log, "ab") as file:
            file.write((runs.FURTHER + self.head[1] + "\n").encode())
        done = tools.ran("explain", log)
        self.assertEqual(done.returncode, 0)
        self.assertIn("the MME doesn't take sub of %s" % IMSIS[0], done.stderr.decode())


class OfAFront(Spoken):
    """A front that goes on after a snapshot."""

    def begin(self, *words, **others):
        self.front = self.running(*NEVER, *words, head=self.head, program=fronted.LIBRARY, **others)
        self.station = self.front.station()
        self.says(lambda: self.trace.set_up(phones.Station(0), connects=False))

    def replays(self, phone, station):
        """A SERVICE REQUEST by the last count that was accepted; owed SERVICE REJECT and a release."""
        nas = lte.service_request(phone.key, phone.ksi, phone.up_count - 1)
        self.trace.hear(station, lte.initial_ue_message(self.trace.network, station, 2, nas, phone.tmsi))
        self.trace.answers += [""] * 2

    def test_reasons(self):
        """Its page has reasons from the snapshot on; and the tools read its log, whose first segment is gone, from there on."""
        [phone], station = self.provision(3), phones.Station(0)
        self.begin()
        self.says(*phone.attach_steps(station, 1), phone.is_released)
        log = self.front.log
        self.front.process.send_signal(signal.SIGHUP)
        self.front.until(lambda: older_segments(str(log)) and log.exists())
        self.assertEqual(self.front.stop()[0], 0)
        self.begin("--resume", folder=self.front.folder)
        self.says(lambda: self.replays(phone, station))
        reason = "count 1 was accepted before the snapshot (TS 24.301 clause 4.4.3.2"
        self.front.until(lambda: reason in " ".join(map(html.unescape, REASON.findall(self.get("/")[0]))))
        self.assertEqual(self.front.stop()[0], 0)
        for path in older_segments(str(log)).values():
            pathlib.Path(path).unlink()
        for path in (log, str(log) + ".counts"):
            done = tools.ran("explain", "--brief", "--from", 1, path)
            told = "SERVICE REQUEST is refused (replayed): " + reason in done.stdout.decode()
            self.assertEqual((done.returncode, told), (0, True), done)
        self.assertIn(b"SERVICE REQUEST", tools.ran("chart", "--from", 1, log).stdout)


if __name__ == "__main__":
    judged = runpy.run_path(str(TOP / "tests" / "tools" / "run"))["judged"]
    names = ["__main__." + name for name in sys.argv[1:]] or ["__main__"]
    sys.exit(judged([unittest.defaultTestLoader.loadTestsFromNames(names)]))
