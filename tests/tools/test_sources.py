"""`tools/vectors serve`: the six sets of TS 35.207 and a second Milenage; sequence numbers over restarts, kills, a power cut and
several sources; a phone that is ahead; files that others may open; lines that are wrong, and a reader that is slow. And the source
of docs/LAB.md in shell."""
import importlib
import os
import pathlib
import random
import re
import resource
import shutil
import sqlite3
import subprocess
import threading
import time
import unittest

from tests.tools import tools
from tests.tools.card import SYNCH_FAILURE, Card
from tests.tools.power import Disk
from tests.tools.sourced import Running, vector
from tests.tools.test_vectors import LTE, test_sets

SERVING, STORE, ASKING, WORDS = (
    importlib.import_module("tools.sourcing." + name) for name in ("serving", "store", "asking", "words"))
IMSI, OTHER, NOBODY = "001010000000001", "001010000000002", "001010000000009"
SETS = list(test_sets())
K, OPC = SETS[0]["k"], SETS[0]["opc"]
LINE = "%s %s %s" % (IMSI, K.hex(), OPC.hex())
NETWORK = "001 01"
INDICES = 32


def sims_of(count):
    """A list of SIMs, each with keys of its own, and their cards."""
    cards = {"00101%010d" % number: Card(bytes([number >> 8, number & 255]) * 8, bytes([number & 255, number >> 8]) * 8)
             for number in range(1, count + 1)}
    text = "".join("%s %032x %032x\n" % (imsi, card.k, card.opc) for imsi, card in cards.items())
    return text, cards


class Sources(tools.InFolder):
    def setUp(self):
        super().setUp()
        self.card = Card(K, OPC)

    def private(self, name, text):
        path = self.file(name, text)
        path.chmod(0o600)
        return path

    def source(self, text=LINE, store="store", **named):
        return Running(self, "vectors", "serve", self.private("sims", text), self.folder / store, **named)

    @staticmethod
    def keep_asking(source, count):
        """Asks until the source is gone."""
        while source.process.poll() is None:
            source.say(*["vectors %s %d %s" % (IMSI, count, NETWORK)] * 5)

    def sqns(self, lines, card=None):
        """The SQNs of lines `vec`."""
        return [(card or self.card).sqn_of(*vector(line)[1:3]) for line in lines]


class Vectors(Sources):
    def test_the_sets(self):
        """Each set's SIM, SQN, AMF and RAND: AUTN and XRES are made of the set's own f1, f2 and f5, KASME of its f3 and f4."""
        for number, given in enumerate(SETS):
            for operator in ("op=" + given["op"].hex(), given["opc"].hex()):
                with self.subTest(set=number + 1, operator=operator[:3]):
                    text = "%s %s %s %s amf=%s" % (IMSI, given["k"].hex(), operator, given["sqn"].hex(), given["amf"].hex())
                    known = SERVING.read_sims(self.private("sims", text))
                    store = STORE.Store(self.folder / ("store%d%s" % (number, operator[:2])))
                    source = SERVING.Source(known, store, self.fail, random=lambda count: given["rand"])
                    ours, theirs = os.pipe(), os.pipe()
                    os.write(ours[1], b"vectors %s 1 001 01\n" % IMSI.encode())
                    os.close(ours[1])
                    source.serve(ours[0], theirs[1])
                    _, *parts = vector(os.read(theirs[0], 1000).decode().strip())
                    for file in (ours[0], *theirs):
                        os.close(file)
                    store.close()
                    hidden = bytes(x ^ y for x, y in zip(given["sqn"], given["f5"]))
                    kasme = LTE.derived(given["f3"] + given["f4"], 0x10, b"\x00\xf1\x10", hidden)
                    self.assertEqual(parts, [given["rand"], hidden + given["amf"] + given["f1"], given["f2"], kasme])

    def test_second_opinion(self):
        """Challenges by chance, for networks of two digits and of three: a second Milenage makes the same, and a SIM takes each."""
        for network, octets in ((NETWORK, "00f110"), ("310 410", "130014")):
            card = Card(K, OPC, bytes.fromhex(octets))
            source = self.source(store=network)
            lines = source.answers("vectors %s 64 %s" % (IMSI, network), 64)
            self.assertEqual(len(lines), 64)
            for line in lines:
                imsi, rand, autn, xres, kasme = vector(line)
                self.assertEqual((imsi, card.made(rand, card.sqn_of(rand, autn))), (IMSI, (autn, xres, kasme)))
                self.assertEqual(card.answer(rand, autn), ("res", xres))
            self.assertEqual(source.finish(), ([], 0))
            self.assertEqual(source.said(), "")

    def test_second_card(self):
        """The second Milenage itself, by the sets."""
        for given in SETS:
            card, sqn = Card(given["k"], given["opc"]), int.from_bytes(given["sqn"], "big")
            hidden = bytes(x ^ y for x, y in zip(given["sqn"], given["f5"]))
            autn, xres, _ = card.made(given["rand"], sqn, given["amf"])
            self.assertEqual((autn, xres), (hidden + given["amf"] + given["f1"], given["f2"]))
            own = bytes(x ^ y for x, y in zip(given["sqn"], given["f5_star"]))
            self.assertEqual(card.auts(given["rand"], sqn)[:6], own)

    def test_what_rises(self):
        """From a SIM's first SQN, and from that of its line, SEQ is one more each time, and IND goes round."""
        source = self.source("%s\n%s %s %s 0000000000ff" % (LINE, OTHER, K.hex(), OPC.hex()))
        first = self.sqns(source.answers("vectors %s 64 %s" % (IMSI, NETWORK), 64))
        self.assertEqual(first, [sequence << 5 | sequence % INDICES for sequence in range(1, 65)])
        second = self.sqns(source.answers("vectors %s 3 %s" % (OTHER, NETWORK), 3))
        self.assertEqual(second, [7 << 5 | 31, 8 << 5 | 0, 9 << 5 | 1])

    def test_separation_bit(self):
        source = self.source(LINE + " amf=0000")
        self.assertTrue(source.answers("vectors %s 1 %s" % (IMSI, NETWORK))[0].startswith("vec "))
        source.until_said("SIMs whose AMF has a separation bit of 0: 1; a phone refuses")


class Numbers(Sources):
    def test_restarts(self):
        """A thousand vectors of a SIM, with a restart after each hundred: each SQN is greater than all before it."""
        lines = []
        for _ in range(10):
            source = self.source()
            for count in (64, 35, 1):
                lines += source.answers("vectors %s %d %s" % (IMSI, count, NETWORK), count)
            self.assertEqual(source.finish(), ([], 0))
        sqns = self.sqns(lines)
        self.assertEqual(len(sqns), 1000)
        self.assertTrue(all(one < next_one for one, next_one in zip(sqns, sqns[1:])))
        self.assertEqual(len({vector(line)[1] for line in lines}), 1000)
        for line in lines:
            self.assertEqual(self.card.answer(*vector(line)[1:3])[0], "res")

    def test_kills(self):
        """Killed at twenty moments while it answers, and begun again: what came is once each, and only ever greater."""
        chance, lines = random.Random(20), []
        for _ in range(20):
            source = self.source()
            lines += source.answers("vectors %s 1 %s" % (IMSI, NETWORK))
            asking = threading.Thread(target=self.keep_asking, args=(source, 2))
            asking.start()
            lines += [source.line() for _ in range(chance.randint(0, 40))]
            time.sleep(chance.uniform(0.0, 0.02))
            *whole, _ = source.kill().decode().split("\n")  # (the last line may be cut)
            asking.join()
            lines += whole
        sqns = self.sqns(lines)
        self.assertGreater(len(sqns), 300)
        self.assertTrue(all(one < next_one for one, next_one in zip(sqns, sqns[1:])))
        self.assertEqual(len({vector(line)[1] for line in lines}), len(lines))

    @unittest.skipUnless(shutil.which("cc"), "no C compiler")
    def test_power_cuts(self):
        """After a power cut the store has each SQN that was handed out, whatever else the disk has kept."""
        room, sqns = self.folder / "disk", []
        room.mkdir()
        disk = Disk(room, random.Random(5))
        for number in range(6):
            source = Running(self, "vectors", "serve", self.private("sims", LINE), disk.folder / "store",
                             before=lambda: os.environ.update(disk.environment("boot")))
            for count in (1, 2, 7)[:1 + number % 3]:
                sqns += self.sqns(source.answers("vectors %s %d %s" % (IMSI, count, NETWORK), count))
            source.kill()
            disk.lose_power()
        self.assertTrue(all(one < next_one for one, next_one in zip(sqns, sqns[1:])), sqns)

    def test_several_sources(self):
        """Four sources with one store at once hand out no SQN twice, and each answers all."""
        lines = []

        def ask(source):
            for _ in range(60):
                lines.extend(source.answers("vectors %s 1 %s" % (IMSI, NETWORK)))

        asking = [threading.Thread(target=ask, args=(self.source(),)) for _ in range(4)]
        for thread in asking:
            thread.start()
        for thread in asking:
            thread.join()
        self.assertEqual((len(lines), len(set(self.sqns(lines)))), (240, 240))

    def test_many_sims(self):
        """Five hundred SIMs that are asked for at once, each with its own keys."""
        text, cards = sims_of(500)
        source = self.source(text)
        asked = threading.Thread(target=source.say, args=["vectors %s 2 %s" % (imsi, NETWORK) for imsi in cards])
        asked.start()
        lines = [source.line() for _ in range(1000)]
        asked.join()
        self.assertEqual([vector(line)[0] for line in lines], [imsi for imsi in cards for _ in range(2)])
        for line in lines:
            imsi, rand, autn, xres, kasme = vector(line)
            self.assertEqual(cards[imsi].made(rand, cards[imsi].sqn_of(rand, autn)), (autn, xres, kasme))
        self.assertEqual(source.finish(), ([], 0))

    def test_no_sqn_left(self):
        """The last SQNs of 48 bits are handed out, and none after them."""
        source = self.source(LINE + " ffffffffffc1")
        self.assertEqual(source.answers("vectors %s 3 %s" % (IMSI, NETWORK), 3), ["later " + IMSI])
        source.until_said("there aren't 3 SQNs of 48 bits left")
        lines = source.answers("vectors %s 2 %s" % (IMSI, NETWORK), 2)
        self.assertEqual(self.sqns(lines), [0xFFFFFFFFFFC1, 0xFFFFFFFFFFE2])
        self.assertEqual(source.answers("vectors %s 1 %s" % (IMSI, NETWORK)), ["later " + IMSI])


class Resynchronization(Sources):
    def asks_anew(self, source, line, auts):
        return source.answers("vectors %s 1 %s %s %s" % (IMSI, NETWORK, vector(line)[1].hex(), auts.hex()))

    def test_ahead(self):
        """A SIM whose SEQ is 2^20 ahead, by whichever index, refuses, and takes the vector that follows its AUTS."""
        source = self.source()
        for index in (0, 1, 7, 30, 31):
            with self.subTest(index=index):
                [line] = source.answers("vectors %s 1 %s" % (IMSI, NETWORK))
                self.card.highest = [0] * INDICES
                ahead = (self.card.sqn_of(*vector(line)[1:3]) >> 5) + (1 << 20)
                self.card.highest[index] = ahead
                found = self.sqns([line])[0] % INDICES
                self.card.highest[found] = ahead
                why, auts = self.card.answer(*vector(line)[1:3])
                self.assertEqual(why, SYNCH_FAILURE)
                [again] = self.asks_anew(source, line, auts)
                self.assertEqual(self.sqns([again])[0] >> 5, ahead + 1)
                self.assertEqual(self.card.answer(*vector(again)[1:3])[0], "res")
        self.assertEqual(source.said(), "")

    def test_behind(self):
        """A SIM that is behind, as where an old vector came late, gets the next SQN and not an earlier one."""
        source = self.source()
        lines = source.answers("vectors %s 40 %s" % (IMSI, NETWORK), 40)
        auts = self.card.auts(vector(lines[0])[1], 3 << 5 | 3)
        [again] = self.asks_anew(source, lines[0], auts)
        self.assertEqual(self.sqns([again]), [41 << 5 | 41 % INDICES])
        source = self.source(LINE + " 000000001000", store="another")
        [again] = self.asks_anew(source, lines[0], auts)
        self.assertEqual(self.sqns([again]), [0x1000])

    def test_wrong_mac(self):
        """An AUTS whose MAC-S is wrong, or that goes with another RAND, is refused in words, and moves no SQN."""
        source = self.source()
        [line] = source.answers("vectors %s 1 %s" % (IMSI, NETWORK))
        auts = self.card.auts(vector(line)[1], 1 << 40)
        for wrong in (auts[:-1] + bytes([auts[-1] ^ 1]), bytes([auts[0] ^ 1]) + auts[1:], bytes(14)):
            self.assertEqual(self.asks_anew(source, line, wrong), ["later " + IMSI])
        self.assertEqual(source.answers("vectors %s 1 %s %s %s" % (IMSI, NETWORK, "00" * 16, auts.hex())), ["later " + IMSI])
        source.until_said("IMSI %s: the MAC-S in the AUTS isn't that of these keys and this RAND" % IMSI)
        self.assertEqual(self.sqns(source.answers("vectors %s 1 %s" % (IMSI, NETWORK))), [2 << 5 | 2])

    def test_sqn_of_the_list(self):
        """The SQN of a SIM's line is where it begins: a later, greater one is taken up, and a lesser one isn't."""
        for sqn, wanted in (("000000000100", 0x100), ("000000000021", 0x121), ("000000001000", 0x1000)):
            source = self.source("%s %s" % (LINE, sqn))
            self.assertEqual(self.sqns(source.answers("vectors %s 1 %s" % (IMSI, NETWORK))), [wanted])
            source.finish()


class Lines(Sources):
    def test_wrong_requests(self):
        """Each is named in words, and answered where it has an IMSI; the source goes on."""
        source = self.source()
        for request, answer, said in (
                ("give me vectors", None, "no request begins with 'give'"), ("vectors", None, "vectors has no IMSI"),
                ("vectors 12345 1 001 01", "unknown 12345", "the IMSI: '12345' isn't 14 or 15 digits"),
                ("vectors " + "1" * 17 + " 1 001 01", None, "the IMSI: a text of 17 characters"),
                ("vectors x\x1b[2J 1 001 01", None, r"the IMSI: 'x\x1b[2J'"),
                ("vectors %s" % IMSI, "later " + IMSI, "vectors has 4 or 6 fields, and here are 1"),
                ("vectors %s 0 001 01" % IMSI, "later " + IMSI, "'0' isn't a number from 1 to 64"),
                ("vectors %s 65 001 01" % IMSI, "later " + IMSI, "'65' isn't a number"),
                ("vectors %s -1 001 01" % IMSI, "later " + IMSI, "'-1' isn't a number"),
                ("vectors %s 1 01 001" % IMSI, "later " + IMSI, "'01' isn't 3 digits"),
                ("vectors %s 1 001 1" % IMSI, "later " + IMSI, "'1' isn't 2 or 3 digits"),
                ("vectors %s 1 001 01 %s" % (IMSI, "00" * 16), "later " + IMSI, "here are 5"),
                ("vectors %s 1 001 01 %s %s" % (IMSI, "00" * 15, "00" * 14), "later " + IMSI, "a text of 30 characters isn't 16"),
                ("vectors %s 1 001 01 %s %s" % (IMSI, "0g" * 16, "00" * 14), "later " + IMSI, "isn't hex"),
                ("vectors %s 1 001 01 %s %s x" % (IMSI, "00" * 16, "00" * 14), "later " + IMSI, "here are 7"),
                ("vectors  %s 1 001 01" % IMSI, None, "the IMSI: ''"), ("vectors %s 1 001 01\r" % IMSI, "later " + IMSI, r"'01\r'"),
                ("gone %s now" % IMSI, "later " + IMSI, "gone has 1 fields, and here are 2"),
                ("vectors " + "0" * 300, None, "a line of more than 200 octets"),
                ("\x00\xff", None, r"no request begins with '\x00"),
                ("cancel " + IMSI, None, "no request begins with 'cancel'")):
            with self.subTest(request=request):
                source.say(request, "vectors %s 1 001 01" % NOBODY)
                got = [source.line()]
                while got[-1] != "unknown " + NOBODY:
                    got.append(source.line())
                self.assertEqual(got[:-1], [answer] if answer else [])
                source.until_said(said.encode("unicode_escape").decode() if "\x1b" in said else said)
        self.assertEqual(self.sqns(source.answers("vectors %s 1 %s" % (IMSI, NETWORK))), [0x21])

    def test_others(self):
        """Comments and empty lines are nothing; a last line needs no end; where phones are changes nothing here."""
        source = self.source()
        source.say("# a comment", "", "registered " + IMSI, "gone " + IMSI, "registered " + NOBODY)
        source.process.stdin.write(b"vectors %s 2 001 01" % IMSI.encode())
        lines, status = source.finish()
        self.assertEqual((lines[:3], status), (["registered " + IMSI, "gone " + IMSI, "unknown " + NOBODY], 0))
        self.assertEqual(self.sqns(lines[3:]), [0x21, 0x42])
        self.assertEqual(source.said(), "")

    def test_pieces(self):
        """Requests in whatever pieces they come, with lines of every length around the longest one."""
        lines = [b"a" * size for size in range(190, 212)] + [b"", b"b" * 70000, b"c"]
        octets = b"".join(line + b"\n" for line in lines) + b"d"
        for step in (1, 7, 200, 201, 1 << 16):
            taking = ASKING.Lines()
            found = [line for at in range(0, len(octets), step) for line in taking.take(octets[at:at + step])] + taking.last()
            self.assertEqual(found, [line if len(line) <= 200 else None for line in lines + [b"d"]])

    def test_slow_reader(self):
        """Answers that nobody reads keep the source waiting: it takes no more, grows no more, and loses none."""
        source = self.source()
        asked = threading.Thread(target=self.keep_asking, args=(source, 64))
        asked.start()
        before, now = -1, 0
        while now != before:
            time.sleep(0.5)
            before, now = now, self.pages(source)
        self.assertTrue(asked.is_alive())
        self.assertLess(now * os.sysconf("SC_PAGE_SIZE"), 100 << 20)
        lines = [source.line() for _ in range(3 * 64)]
        self.assertEqual(self.sqns(lines), [sequence << 5 | sequence % INDICES for sequence in range(1, 3 * 64 + 1)])
        source.kill()
        asked.join()

    @staticmethod
    def pages(source):
        return int(pathlib.Path("/proc/%d/statm" % source.process.pid).read_text().split()[1])

    def test_nobody_reads(self):
        source = self.source()
        source.process.stdout.close()
        source.say("vectors %s 1 %s" % (IMSI, NETWORK))
        self.assertEqual(source.process.wait(60), 2)
        self.assertEqual(source.said(), "")


class Files(Sources):
    def refused(self, sims, store):
        """What it says of its files, which it refuses."""
        done = tools.ran("vectors", "serve", sims, store)
        self.assertEqual((done.returncode, done.stdout), (2, b""))
        self.assertNotIn(b"Traceback", done.stderr)
        self.assertNotIn(K.hex()[:12].encode(), done.stderr)
        return done.stderr.decode()

    def test_modes(self):
        """A list or a store that others may open is refused; what it makes is its owner's alone, by any mask."""
        sims, store = self.private("sims", LINE), self.folder / "store"
        for mode in (0o640, 0o604, 0o660, 0o601):
            sims.chmod(mode)
            self.assertIn("sims: others than its owner may open it (mode %o): chmod 600" % mode, self.refused(sims, store))
        self.assertFalse(store.exists())
        source = self.source(before=lambda: os.umask(0))
        source.answers("vectors %s 1 %s" % (IMSI, NETWORK))
        made = list(self.folder.glob("store*"))
        self.assertGreater(len(made), 1)
        self.assertEqual({path.stat().st_mode & 0o777 for path in made}, {0o600})
        source.finish()
        store.chmod(0o644)
        self.assertIn("store: others than its owner may open it (mode 644)", self.refused(sims, store))
        if os.geteuid() == 0:
            store.chmod(0o600)
            os.chown(sims, 12345, -1)
            self.assertIn("sims: it is another user's", self.refused(sims, store))

    def test_no_store(self):
        """What is no store is refused as it is."""
        sims = self.private("sims", LINE)
        other = self.private("other", b"")
        with sqlite3.connect(other) as base:
            base.execute("CREATE TABLE somebody (else_ TEXT)")
        base.close()
        before = other.read_bytes()
        for store, told in ((other, "other: it is another program's, and no store of SQNs"),
                            (self.private("text", "what is this? " * 100), "text: file is not a database"),
                            (self.folder, "Is a directory"), (self.folder / "none" / "store", "No such file or directory")):
            self.assertIn(told, self.refused(sims, store))
        self.assertEqual(other.read_bytes(), before)

    def test_full_disk(self):
        """Where the store can't be written there are no vectors, and the source goes on."""
        source = self.source(before=lambda: resource.setrlimit(resource.RLIMIT_FSIZE, (60000, 60000)))
        for _ in range(200):
            found = source.answers("vectors %s 1 %s" % (IMSI, NETWORK))
            if found == ["later " + IMSI]:
                break
        self.assertEqual(found, ["later " + IMSI])
        source.until_said("store: disk I/O error")
        self.assertEqual(source.answers("registered " + IMSI), ["registered " + IMSI])
        self.assertEqual(source.finish()[1], 0)

    def test_lists(self):
        """A line that is wrong is named, without a key in it."""
        self.assertIn("sims: line 2: IMSI %s stands in line 1 already" % IMSI,
                      self.refused(self.private("sims", LINE + "\n" + LINE), self.folder / "store"))
        for text, told in (
                ("# nobody", "sims: there is no SIM in it"), (LINE + " x=1", "line 1: of the fields with names, a SIM has op=OP"),
                (LINE + " amf=8000 amf=8000", "amf=AMF, each once"), (LINE + " amf=80", "'80' isn't 2 octets in hex"),
                ("%s %s op=%s" % (IMSI, K.hex(), OPC.hex()[1:]), "OP isn't 16 octets in hex, which are 32 digits: here are 31"),
                ("%s %s" % (IMSI, K.hex()), "a SIM has the fields IMSI, K, OPc and perhaps SQN, and here are 2"),
                ("%s %s %s op=%s" % (IMSI, K.hex(), OPC.hex(), OPC.hex()), "a text of 32 characters isn't 6 octets"),
                ("%sx %s" % (IMSI, LINE[16:]), "'001010000000001x' isn't 14 or 15 digits"),
                ("%s %s %s" % (IMSI, K.hex()[:-1], OPC.hex()), "K isn't 16 octets in hex, which are 32 digits: here are 31"),
                ("%s %sg %s" % (IMSI, K.hex()[:-1], OPC.hex()), "K isn't hex"),
                ("%s %s %s" % (K.hex(), IMSI, OPC.hex()), "a text of 32 characters isn't 14 or 15 digits")):
            with self.subTest(told=told):
                with self.assertRaises(WORDS.Fault) as caught:
                    SERVING.read_sims(self.private("sims", text))
                self.assertIn(told, str(caught.exception))
                self.assertNotRegex(str(caught.exception), "%s|%s" % (K.hex()[:12], OPC.hex()[1:12]))
        with self.assertRaisesRegex(WORDS.Fault, "nothing: No such file"):
            SERVING.read_sims(self.folder / "nothing")

    def test_streams(self):
        """Standard input that can't be read, and output that can't be written."""
        sims = self.private("sims", LINE)
        command = "%s serve %s %s" % (tools.TOP / "tools/vectors", sims, self.folder / "store")
        for streams, told in (("0>%s" % (self.folder / "out"), "Bad file descriptor"),
                              ("</dev/stdin >/dev/full", "No space left on device")):
            done = subprocess.run("%s %s" % (command, streams), shell=True, input=b"gone %s\n" % IMSI.encode(), capture_output=True,
                                  timeout=60, check=False)
            self.assertEqual((done.returncode, done.stdout), (2, b""))
            self.assertEqual(done.stderr.decode(), "vectors: standard input or output: %s\n" % told)

    def test_words(self):
        for words in (("sims",), ("--count", "3")):
            done = tools.ran("vectors", "serve", *words)
            self.assertEqual((done.returncode, done.stdout), (2, b""))
            self.assertTrue(done.stderr.startswith(b"usage: vectors serve"), done.stderr)
        self.assertIn(b"Answers requests", tools.ran("vectors", "serve", "--help").stdout)


class Shell(Sources):
    """The source of docs/LAB.md in shell."""

    def setUp(self):
        super().setUp()
        text = (tools.TOP / "docs" / "LAB.md").read_text()
        program = re.search(r"cat >\$lab/source <<'END'\n(.*?)\n    END\n", text, re.DOTALL)[1]
        self.program = self.file("source", "".join(line[4:] + "\n" for line in program.splitlines()))
        self.assertLessEqual(len(self.program.read_text().splitlines()), 14)
        (self.folder / "given").mkdir()
        self.lines = ["vec %s %032x %032x %016x %064x" % (IMSI, at, at, at, at) for at in range(1, 6)]
        (self.folder / "given" / IMSI).write_text("".join(line + "\n" for line in self.lines))

    def answers(self, *requests):
        done = subprocess.run(["sh", self.program, self.folder / "given"], input="".join(line + "\n" for line in requests),
                              capture_output=True, text=True, timeout=60, check=True)
        return done.stdout.splitlines(), done.stderr

    def test_answers(self):
        """Vectors come once each, over its ends; what it can't give it says."""
        self.assertEqual(self.answers("vectors %s 2 001 01" % IMSI, "vectors %s 1 001 01" % NOBODY), (
            [*self.lines[:2], "unknown " + NOBODY], ""))
        found, said = self.answers(*["vectors %s %d 001 01" % (IMSI, count) for count in (4, 3, 1)])
        self.assertEqual(found, ["later " + IMSI, *self.lines[2:], "later " + IMSI])
        self.assertEqual(said.count("can't be supplied: vectors"), 2)

    def test_what_it_can_not(self):
        found, said = self.answers("vectors %s 1 310 410" % IMSI, "vectors %s 1 001 01 %s %s" % (IMSI, "00" * 16, "00" * 14),
                                   "registered " + IMSI, "vectors ../given/%s 1 001 01" % IMSI, "vectors %s 1x 001 01" % IMSI,
                                   "vectors", "vectors %s 0 001 01" % IMSI, "vectors %s 1 001 01" % IMSI)
        self.assertEqual(found, ["later " + IMSI] * 5 + [self.lines[0]])
        self.assertEqual(len(said.splitlines()), 7, said)


if __name__ == "__main__":
    unittest.main()
