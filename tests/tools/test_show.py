"""tools/show: each message of the rows and of examples/ is what tshark sees in it, and each cause has the name that tshark has."""
import importlib
import json
import os
import random
import re
import subprocess
import unittest

from reference import lte as LTE
from tests.tools import dissection, tools
from tools import causes
from tools.eps import messages, quick, render

S1AP = importlib.import_module("tools.s1ap")
RUNS = importlib.import_module("tools.runs")
PROGRAM = tools.TOP / "crates" / "mme" / "out" / "mme"
FILLED = 4  # of a shape, and bits turned
FILES = [path for kind in ("*.trace", "*.answers") for path in sorted(tools.ROWS.glob(kind))]
FILES += sorted((tools.TOP / "examples").glob("*.trace"))
NAS_FIRST = {"emm": "nas_eps.nas_msg_emm_type", "esm": "nas_eps.nas_msg_esm_type"}

# The elements of S1AP by the names that they have in TS 36.413 clause 9.3.6, where ours isn't the same but for hyphens.
ELEMENT_NAMES = {
    "E-RAB To Be Switched in Downlink List": "E-RABToBeSwitchedDLList", "E-RAB to Be Setup List": "E-RABToBeSetupListCtxtSUReq",
    "Security Context": "SecurityContext", "UE Paging Identity": "UEPagingID", "List of TAIs": "TAIList",
    "E-RAB Setup List": "E-RABSetupListCtxtSURes", "Global eNB ID": "Global-ENB-ID", "eNB Name": "eNBname", "MME Name": "MMEname",
    "UE Aggregate Maximum Bit Rate": "uEaggregateMaximumBitrate", "Security Key": "SecurityKey",
    "UE Radio Capability": "UERadioCapability", "UE Identity Index value": "UEIdentityIndexValue",
    "Relative MME Capacity": "RelativeMMECapacity", "Source MME UE S1AP ID": "SourceMME-UE-S1AP-ID", "Reset Type": "ResetType",
    "UE-associated logical S1-connection List": "UE-associatedLogicalS1-ConnectionListResAck", "UE S1AP IDs": "UE-S1AP-IDs",
    "E-UTRAN CGI": "EUTRAN-CGI", "Served GUMMEIs": "ServedGUMMEIs", "UE Security Capabilities": "UESecurityCapabilities",
    "CN Domain": "CNDomain", "Default Paging DRX": "DefaultPagingDRX", "Supported TAs": "SupportedTAs",
}


def joined(name):
    """A name without what the notations write differently: case, spaces, hyphens."""
    return name.casefold().replace(" ", "").replace("-", "").replace("_", "")


def sent():
    """Each message of the rows and examples once: its octets, and whether the MME sends it."""
    found = {}
    for path in FILES:
        for line in path.read_text(errors="replace").splitlines():
            word, *fields = line.removeprefix("# ").split(" ")
            try:
                if (word, len(fields)) in (("in", 2), ("out", 3)):
                    found[b"" if fields[-1] == "-" else bytes.fromhex(fields[-1]), word == "out"] = None
            except ValueError:
                continue
    return list(found)


def is_spelled(octets, from_mme):
    """Whether nothing in a message is a fault: the two may stop at different places in one that has a fault."""
    message = messages.decode(octets)
    carried = message.nas()
    if message.fault or not carried:
        return not message.fault
    carried = render.Nas(carried, from_mme)
    return not carried.plain.fault and not getattr(carried.inside(), "fault", None)


class Counted(quick.Lines):
    """Lines that count how many messages were decoded whole."""
    decoded = 0

    def met(self, octets, from_mme):
        self.decoded += 1
        return super().met(octets, from_mme)


def with_bits(octets, first, width, bits=None):
    """The octets with other bits from one on: these, or each turned."""
    shift = 8 * len(octets) - first - width
    mask, number = (1 << width) - 1 << shift, int.from_bytes(octets, "big")
    return ((number & ~mask | bits << shift) if bits is not None else number ^ mask).to_bytes(len(octets), "big")


def filled(octets, holes, rng):
    """A message of the same shape, with anything in its holes."""
    for hole in holes:
        bits = rng.randrange(hole.least or 0, 1 << hole.width)
        if hole.is_decimal:
            bits = int("".join(rng.choice("0123456789") for _ in range(hole.width // 4)), 16)
        octets = with_bits(octets, hole.first, hole.width, bits)
    return octets


@unittest.skipIf(dissection.IS_MISSING, "no tshark")
class Dissected(unittest.TestCase):
    def test_values_and_lengths(self):
        """Each value of each message, and the length of each element, are those that tshark sees."""
        chosen = [message for message in sent() if is_spelled(*message)]
        self.assertGreater(len(chosen), 640)
        for (octets, from_mme), layer in zip(chosen, dissection.dissected(chosen), strict=True):
            with self.subTest(octets=octets.hex()):
                self.assertEqual(dict(dissection.Ours(octets, from_mme).found), dissection.fields_of(layer))
                name = messages.decode(octets).name
                self.assertEqual("s1ap.%s_element" % joined(name), joined(dissection.name_of(layer)).replace("element", "_element"))

    def test_names(self):
        """Causes, message types and elements have the names that tshark has."""
        names = dissection.value_names()
        tables = [(causes.EMM_CAUSES, names["nas_eps.emm.cause"]), (causes.ESM_CAUSES, names["nas_eps.esm.cause"]),
                  (S1AP.EMM_NAMES, names["nas_eps.nas_msg_emm_type"]), (S1AP.ESM_NAMES, names["nas_eps.nas_msg_esm_type"])]
        tables += [(dict(enumerate(root)), names["s1ap." + group]) for group, _, root in S1AP.CAUSES]
        for ours, theirs in tables:
            for number, name in ours.items():
                if number != S1AP.SERVICE_REQUEST or theirs is not tables[2][1]:  # a header type, which has no message type
                    with self.subTest(name=name):
                        self.assertEqual(joined(name), joined(theirs[number]))

    def test_elements(self):
        names = dissection.value_names()["s1ap.id"]
        for number, (name, _) in messages.ELEMENTS.items():
            with self.subTest(name=name):
                self.assertEqual("id" + joined(ELEMENT_NAMES.get(name, name)), joined(names[number]))


class Reset(unittest.TestCase):
    """`--reset`, and the lines of docs/SCRIPTS.md, "RESET"."""
    SECTION = (tools.TOP / "docs" / "SCRIPTS.md").read_text().partition("\n## RESET\n")[2].partition("\n## ")[0]
    LINES = re.findall("^    (raw 0 [0-9a-f]+)$", SECTION, re.M)
    COMMANDS = re.findall("^    tools/show (--reset .*)$", SECTION, re.M)
    # The items of those lines, and the octets after `Reset Type`, put together by hand from X.691 and TS 36.413 clause 9.1.8.1.
    ITEMS = [[], [(1, None)], [(None, 9)], [(1, 9)], [(1, None), (None, 9)]]
    TYPES = ["00", "4000" "005b00024001", "4000" "005b00022009", "4000" "005b000460010009", "4001" "005b00024001" "005b00022009"]

    @staticmethod
    def printed(*words):
        done = tools.ran("show", *words)
        assert (done.returncode, done.stderr) == (0, b""), done
        return done.stdout.decode().rstrip("\n")

    def test_lines(self):
        """The commands of the document print its lines, which are those made by hand."""
        self.assertEqual([self.printed(*command.split()) for command in self.COMMANDS], self.LINES)
        self.assertEqual([line.partition("005c00")[2][2:] for line in self.LINES], self.TYPES)
        self.assertEqual(self.LINES, ["raw 0 " + reset_of(items).hex() for items in self.ITEMS])

    def test_decoded(self):
        """tools/show reads each as it was asked for."""
        for line, items in zip(self.LINES, self.ITEMS, strict=True):
            message = messages.decode(bytes.fromhex(line.split()[2]))
            self.assertEqual((message.fault, message.name), (None, "RESET"))
            self.assertEqual(S1AP.listed(S1AP.read(message.octets)), items or None)
            self.assertTrue(message.is_in_order())

    @unittest.skipIf(dissection.IS_MISSING, "no tshark")
    def test_dissected(self):
        """tshark sees the same in them."""
        sent_octets = [(bytes.fromhex(line.split()[2]), False) for line in self.LINES]
        for (octets, _), layer in zip(sent_octets, dissection.dissected(sent_octets), strict=True):
            self.assertEqual(dict(dissection.Ours(octets, False).found), dissection.fields_of(layer))

    def test_ids(self):
        """Ids of each size, and as many as a list has, are as the standards' formats have them."""
        rng, edges = random.Random(14), [0, 1, 127, 128, 255, 256, 65535, 65536, (1 << 24) - 1]
        made = [[(mme_id, None)] for mme_id in [*edges, 1 << 24, (1 << 32) - 1]] + [[(None, enb_id)] for enb_id in edges]
        made += [[(rng.getrandbits(rng.randrange(33)), rng.choice(edges)) for _ in range(count)] for count in (2, 8, 9, 255, 256)]
        for items in made:
            words = [",".join(name % number for name, number in zip(("mme=%d", "enb=%d"), ids) if number is not None)
                     for ids in items]
            self.assertEqual(self.printed("--reset", "127", *words), "raw 127 " + reset_of(items).hex())

    def test_faults(self):
        for words, told in ((["128"], "'128' isn't a number from 0 to 127"), (["0", "1"], "'1' isn't mme=ID, enb=ID or mme="),
                            (["0", "mme=1enb=2"], "isn't mme=ID"), (["0", ""], "isn't mme=ID"),
                            (["0", "enb=1,mme=1"], "isn't mme=ID"), (["0", "enb=16777216"], "an eNB UE S1AP ID 16777215"),
                            (["0", "mme=4294967296"], "is 4294967295 at"), (["0", *["mme=1"] * 257], "lists 256 associations at the most")):
            done = tools.ran("show", "--reset", *words)
            self.assertEqual((done.returncode, done.stdout), (2, b""))
            self.assertIn(told, done.stderr.decode())

    @unittest.skipIf(not PROGRAM.exists() and not os.environ.get("CI"), "the program isn't built")
    def test_played(self):
        """Played, each is acknowledged with its list, and leaves a registered phone idle (docs/TABLE.md, "RESET of a part")."""
        script = (tools.TOP / "examples" / "attach_whole.script").read_text().rstrip("\n").replace(" 0 1\n", " 0 9\n")
        listed = ["", *(kind[2:].replace("005b00", "005b40") for kind in self.TYPES[1:])]
        for line, items in zip(self.LINES, listed, strict=True):
            text = "%s\n%s\nshow 001010000000001\n" % (script, line)
            done = subprocess.run([PROGRAM, "sim"], input=text, capture_output=True, text=True, timeout=60, check=True)
            acknowledged, shown, state = done.stdout.splitlines()[-3:]
            self.assertTrue(acknowledged.startswith("# out e0 0 200e00"), acknowledged)
            self.assertTrue(acknowledged.endswith("005d40%02x%s" % (len(items) // 2, items) if items else "000000"), acknowledged)
            self.assertEqual((shown, state), ("show 001010000000001", "# state 001010000000001 REGISTERED IDLE ACTIVE"))


def reset_of(items):
    """RESET of these associations, or of all, from the standards' formats."""
    return LTE.reset(LTE.part_of_interface(*items) if items else LTE.WHOLE_INTERFACE)


class Printed(unittest.TestCase):
    def test_quick_lines(self):
        """The line of a message that is spelled as one before it is that of the whole decoder, and what charts take from it the
        same: with its holes filled at random, and with a bit turned anywhere. Most such lines are found without the decoder."""
        rng, lines, asked, decoded = random.Random(63), Counted(), 0, 0
        for octets, from_mme in sent():
            message = messages.decode(octets)
            holes = quick.holes_of(message, from_mme)
            others = [filled(octets, holes, rng) for _ in range(FILLED)] if holes is not None else []
            turned = [with_bits(octets, rng.randrange(8 * len(octets)), 1) for _ in range(FILLED)] if octets else []
            for each in [octets, *others, *turned]:
                before = lines.decoded
                with self.subTest(octets=each.hex()):
                    self.assertEqual(lines.of(each, from_mme), render.brief(messages.decode(each), from_mme))
                    self.assertEqual(RUNS.content(each), RUNS.met(each))
                is_other = each in others
                asked, decoded = asked + is_other, decoded + is_other * (lines.decoded - before)
        self.assertGreater(asked, 2000)
        self.assertLess(decoded, asked / 5)

    def test_ids(self):
        """An id stands in the fewest octets, and a station's in three at the most (TS 36.413 clause 9.2.3.4)."""
        lines = quick.Lines()
        for content, wanted in (("0001", "eNB id 1"), ("40ffff", "eNB id 65535"), ("80ffffff", "eNB id 16777215"),
                                ("400001", "more octets than it needs"), ("c001000000", "beyond its range")):
            element = "000840%02x%s" % (len(content) // 2, content)
            octets = bytes.fromhex("000f40%02x000001%s" % (3 + len(element) // 2, element))
            with self.subTest(content=content):
                self.assertIn(wanted, lines.of(octets, False))

    def test_every_file(self):
        """Each file of the rows gives a line, a tree and an object for each of its messages."""
        for path in FILES[::20]:
            with self.subTest(file=path.name):
                lines = path.read_text(errors="replace").splitlines()
                wanted = sum(line.removeprefix("# ").split(" ")[0] in ("in", "out") for line in lines)
                if path.with_suffix(".status").exists():
                    continue
                self.assertEqual(len(tools.ran("show", "--brief", path).stdout.splitlines()), wanted)
                objects = [json.loads(line) for line in tools.ran("show", "--json", path).stdout.splitlines()]
                self.assertEqual(len(objects), wanted)
                self.assertTrue(all("message" in each and "line" in each for each in objects))

    def test_tree(self):
        """ATTACH REJECT with PDN CONNECTIVITY REJECT (TS 24.301 clauses 8.2.3 and 8.3.19), written by hand."""
        done = tools.ran("show", "0744137800040201d132")
        self.assertEqual(done.stdout.decode(), TREE)

    def test_nas_of_header_4(self):
        done = tools.ran("show", "--brief", "47112233440007 5e".replace(" ", ""))
        self.assertEqual(done.stdout.decode(), "SECURITY MODE COMPLETE\n")

    def test_capture(self):
        """A capture has the messages of its trace."""
        path = tools.ROWS / "attach_whole"
        capture = tools.ran("capture", "out", path.with_suffix(".trace"), path.with_suffix(".answers")).stdout
        lines = tools.ran("show", "--brief", "-", given=capture).stdout.decode().splitlines()
        names = [line.split("station 0 ")[1] if "-> MME" in line else line for line in lines]
        self.assertEqual(len(lines), 13)
        self.assertIn("INITIAL UE MESSAGE eNB id 1 [ATTACH REQUEST (PDN CONNECTIVITY REQUEST)]", names[2])
        self.assertEqual(lines[-1], "packet 17 0 s station 0 -> MME UE CONTEXT RELEASE COMPLETE MME id 1 eNB id 1")

    def test_what_cannot_be_taken(self):
        for given, why in ((b"hello\n", "line 1 is of no trace, no answers and no hex"), (b"in 0 0g\n", "aren't octets in hex"),
                           (b"in x 00\n", "isn't a number")):
            with self.subTest(given=given):
                done = tools.ran("show", "-", given=given)
                self.assertEqual(done.returncode, 2)
                self.assertIn(why, done.stderr.decode())
        for word in ("nothing.trace", "000d403", ""):
            with self.subTest(word=word):
                done = tools.ran("show", word)
                self.assertEqual((done.returncode, done.stderr.decode()), (2, "show: %r is neither a file nor octets in hex\n" % word))

    def test_one_octet(self):
        self.assertEqual(tools.ran("show", "07").stdout.decode(),
                         "unreadable NAS message, header 0 plain, 1 octet, ! too short for a message type: 1 octet\n\n")


TREE = """\
ATTACH REJECT, header 0 plain, 10 octets
  EMM cause: #19 ESM failure
  ESM message container: PDN CONNECTIVITY REJECT, 4 octets
    EPS bearer identity: 0
    procedure transaction identity: 1
    ESM cause: #50 PDN type IPv4 only allowed

"""
