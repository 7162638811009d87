"""The commands of docs/LAB.md, in their order, by the names of the package: in a clone, and with the files of the package laid out.
In the program's place stands what reference/phones.py says that an MME owes; those of the live station and of the package need the
program, and are tried where it is built; those with the library are tried in tests/library/test_asking.py. Those by which a phone gets to the Internet are tried under a kernel of their own
(gateway_inside.py), and here those of nftables, by packets (outward.py)."""
import contextlib
import pathlib
import re
import shutil
import subprocess
import sys
import tempfile
import unittest
import xml.etree.ElementTree

from bench.etcds import free_port
from reference import phones as PHONES
from tests.tools import packed, tools
from tests.tools.fronted import PROGRAM

DOCUMENT, QUESTIONS = (tools.TOP / "docs" / name for name in ("LAB.md", "QUESTIONS.md"))
OUTWARD = tools.TOP / "tests" / "tools" / "outward.py"
PLAY, SIM = "mme play $lab/lab.trace", "mme sim $lab/station.script"
LIVE = re.compile("^## 8. A live station\n.*?(?=^## )", re.MULTILINE | re.DOTALL)
INTERNET = re.compile("^## 9. A phone gets to the Internet\n.*?(?=^## )", re.MULTILINE | re.DOTALL)
ENDED = "### After it has ended\n"
# Waits until the live station was sent so many messages: 5 and, where data came for the phone, its page.
HAS_HEARD = "until [ $(cat $lab/station.got 2>/dev/null | wc -l) -ge %d ]; do sleep 0.1; done"
ANSWER = "### the answer to question %d"  # between what the commands of docs/QUESTIONS.md print
NAMES = "mkdir $lab/names"  # how the lines begin that give a clone's tools the package's names
IMSI = "001010000000001"
# The program in bash. For `sim` the run of a phone; for `play` the answers of that, then the states that the added `show` asks for,
# the page for the added `data`, and its repeat.
STAND_IN = """mme() {
    case $1 in
    sim) python3 -B -m tests.tools.test_lab $lab/vectors ;;
    play)
        sed -n 's/^# //p' $lab/station.trace
        echo state %s REGISTERED IDLE ACTIVE
        python3 -B -m tests.tools.test_lab $lab/vectors paged
        python3 -B -m tests.tools.test_lab $lab/vectors paged ;;
    esac
}
""" % IMSI


class Told(PHONES.Trace):
    """A trace with its answers as comments, each below the line that it answers."""

    def owe(self, owner, station, octets):
        super().owe(owner, station, octets)
        self.say("# " + self.answers[-1])


def station_run(vectors):
    """A run of a station and the phone with these vectors, lines `vec`, as a trace with its answers as comments; and the answer to
    data that waits for the phone after it."""
    words = [line.split() for line in vectors.splitlines() if line.startswith("vec")]
    trace, station = Told(), PHONES.Station(0)
    phone = PHONES.Phone(trace, 0, [PHONES.Vector(*map(bytes.fromhex, fields[2:])) for fields in words])
    trace.provision([phone])
    trace.set_up(station)
    phone.attaches(station, 1)
    phone.is_released()
    text = trace.text()
    phone.has_data_waiting([station])
    return text, trace.answers[-1]


def blocks(text):
    """The indented blocks of a text."""
    found = re.findall(r"(?:^    .*\n|^\n(?=    ))+", text, re.MULTILINE)
    return ["\n".join(line[4:] for line in block.strip("\n").split("\n")) for block in found]


def without_stations():
    """The document without the parts that need a live station, but with the lines that a gateway hands out."""
    def handed_out(found):
        [block] = re.findall(r"(?m)^    mme-gateway --sims .*\n(?:    .*\n)*", found[0])
        return "\n%s\n" % block
    return INTERNET.sub(handed_out, LIVE.sub("", DOCUMENT.read_text(encoding="utf-8")))


def answered(text):
    """The commands of docs/QUESTIONS.md, each block with what is shown as printed by it, where `..` is left out."""
    found = []
    for lead, block in re.findall(r"(.*)\n\n((?:    .*\n|\n(?=    ))+)", text):
        block = re.sub("(?m)^    ", "", block)
        if lead == "prints":
            found[-1][1] = block
        else:
            found.append([block, ""])
    return found


def without_names(found):
    """The blocks without the one for a clone."""
    return [block for block in found if not block.startswith(NAMES)]


@contextlib.contextmanager
def in_package():
    """A folder with the files of the package laid out, one for the commands, and one to run them in."""
    with contextlib.ExitStack() as after:
        root, lab, elsewhere = (pathlib.Path(after.enter_context(tempfile.TemporaryDirectory())) for _ in range(3))
        packed.laid(root)
        yield root, lab, elsewhere


class Lab(unittest.TestCase):
    def test_commands(self):
        found = blocks(without_stations())
        [chart] = [block for block in found if block.startswith("P1: ")]
        commands = "\n".join(block for block in found if block != chart)
        self.assertEqual((commands.count(PLAY), commands.count(SIM)), (1, 1))
        with tempfile.TemporaryDirectory() as folder:
            commands = commands.replace("lab=$(mktemp -d)", "lab=" + folder)
            commands = STAND_IN + commands
            done = subprocess.run(["bash", "-euc", commands], cwd=tools.TOP, capture_output=True, timeout=60, check=False)
            self.assertEqual((done.returncode, done.stderr.decode()), (0, ""))
            self.check(done.stdout.decode(), pathlib.Path(folder), chart)

    def check(self, printed, lab, chart):
        """What the commands but for those of the live station print and leave in their folder."""
        self.assertTrue(printed.startswith(chart + "\n"))
        self.assertIn("REGISTERED IDLE ACTIVE", printed)
        self.assertIn("# SQN ff9bb4d0b627\n", printed)
        self.assertEqual(printed.splitlines()[-1], (lab / "vectors").read_text().splitlines()[1])
        xml.etree.ElementTree.parse(lab / "run.svg")
        again = tools.ran("capture", "in", lab / "run.pcapng").stdout.decode().splitlines()
        played = (lab / "lab.trace").read_text().splitlines()
        self.assertEqual(again, [line for line in played if line.split()[0] in ("up", "in", "tick")])

    @unittest.skipUnless(PROGRAM.exists(), "the program isn't built (./mme --prove)")
    def test_with_the_package(self):
        """The same commands with the package, in a folder where nothing of a clone is, and without the lines for a clone."""
        found = without_names(blocks(without_stations()))
        [chart] = [block for block in found if block.startswith("P1: ")]
        with in_package() as (root, lab, elsewhere):
            commands = "\n".join(block for block in found if block != chart).replace("lab=$(mktemp -d)", "lab=%s" % lab)
            done = packed.ran(root, "bash", "-euc", commands, cwd=elsewhere)
            self.assertEqual((done.returncode, done.stderr), (0, ""))
            self.check(done.stdout, lab, chart)

    @unittest.skipUnless(PROGRAM.exists(), "the program isn't built (./mme --prove)")
    def test_live_station(self):
        """The commands of the live station after those that it needs, on another port than S1AP's."""
        with tempfile.TemporaryDirectory() as folder:
            commands = "\n".join(self.live_blocks()).replace("lab=$(mktemp -d)", "lab=" + folder)
            done = subprocess.run(["bash", "-euc", commands], cwd=tools.TOP, capture_output=True, timeout=240, check=False)
            self.assertEqual((done.returncode, done.stderr.decode()), (0, ""))
            self.check_live(done.stdout.decode(), pathlib.Path(folder))

    @unittest.skipUnless(PROGRAM.exists(), "the program isn't built (./mme --prove)")
    def test_live_station_with_the_package(self):
        with in_package() as (root, lab, elsewhere):
            commands = "\n".join(without_names(self.live_blocks())).replace("lab=$(mktemp -d)", "lab=%s" % lab)
            done = packed.ran(root, "bash", "-euc", commands, cwd=elsewhere)
            self.assertEqual((done.returncode, done.stderr), (0, ""))
            self.check_live(done.stdout, lab)

    def live_blocks(self, end="", more=()):
        """The commands up to those of the live station, or up to this heading in its part, and more, with other ports; they wait
        until the station has its answers."""
        text, port = DOCUMENT.read_text(encoding="utf-8"), str(free_port())
        live = LIVE.search(text)[0]
        found = [*blocks(text.partition("## 4.")[0]), *blocks(live.partition(end)[0] if end else live), *more]
        commands = "\0".join(block for block in found if "--library" not in block)
        for before, after in (("--tcp", "--tcp --port " + port), ("36412", port), ("127.0.0.1:9101", "127.0.0.1:0"),
                              ("sleep 2", HAS_HEARD % 5), ("sleep 1", HAS_HEARD % 6)):
            self.assertIn(before, text)
            commands = commands.replace(before, after)
        return commands.split("\0")

    @unittest.skipUnless(PROGRAM.exists(), "the program isn't built (./mme --prove)")
    def test_questions(self):
        """The commands of docs/QUESTIONS.md go on from those of the live station, and print what stands below them."""
        asked = answered(QUESTIONS.read_text(encoding="utf-8"))
        more = ["echo '%s'\n%s" % (ANSWER % place, command) for place, (command, _) in enumerate(asked)]
        with tempfile.TemporaryDirectory() as folder:
            commands = "\n".join(self.live_blocks(ENDED, more)).replace("lab=$(mktemp -d)", "lab=" + folder)
            done = subprocess.run(["bash", "-euc", commands], cwd=tools.TOP, capture_output=True, timeout=240, check=False)
        self.assertEqual((done.returncode, done.stderr.decode()), (0, ""))
        _, *printed = re.split(ANSWER.replace("%d", r"\d+") + "\n", done.stdout.decode())
        self.assertEqual(len(printed), len(asked))
        for (command, shown), got in zip(asked, printed):
            with self.subTest(command=command):
                self.assertRegex(got.strip(), "^%s$" % ".*".join(map(re.escape, shown.strip().split(".."))))

    @unittest.skipUnless(shutil.which("nft") and shutil.which("ip"), "no nftables or no iproute2")
    def test_nftables(self):
        """Packets show what the lines do that translate the phones' addresses and cut sizes of segments."""
        [block] = [block for block in blocks(INTERNET.search(DOCUMENT.read_text(encoding="utf-8"))[0]) if "nft -f" in block]
        words = ["unshare", "-rn", sys.executable, "-B", OUTWARD, block]
        done = subprocess.run(words, capture_output=True, text=True, timeout=600, check=False)
        self.assertEqual((done.returncode, done.stderr), (0, ""))

    def check_live(self, printed, lab):
        """What the commands of the live station print and leave in their folder."""
        text, page = station_run((lab / "vectors").read_text())
        owed = [line.split()[-1] for line in text.splitlines() + [page] if "out " in line]
        self.assertEqual((lab / "station.got").read_text().splitlines(), owed)
        shown = ["state %s DEREGISTERED IDLE INACTIVE" % IMSI, "state %s REGISTERED IDLE ACTIVE" % IMSI]
        told = re.findall(r"^(?:state|taken|given \d).*", printed, re.MULTILINE)
        self.assertEqual(told, [*shown, "taken", *shown, *shown[1:]])
        self.assertEqual(re.findall("^out .*? 0 (.*)", printed, re.MULTILINE), owed)
        self.assertIn("- PAGING -", printed)


if __name__ == "__main__":
    run, page = station_run(pathlib.Path(sys.argv[1]).read_text())
    print(page if sys.argv[2:] else run, end="\n" if sys.argv[2:] else "")
