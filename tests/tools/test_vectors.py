"""tools/vectors: AES by FIPS 197, HMAC by RFC 4231, Milenage by the six test sets of TS 35.207, KASME by the derivation
written a second time in reference/lte.py."""
import hashlib
import hmac
import importlib
import os
import pathlib
import subprocess
import sys
import tempfile
import unittest

from reference import lte as LTE
from tests.tools import tools

VECTORS = tools.module("tools/vectors")
CIPHERS, MILENAGE = (importlib.import_module("tools." + name) for name in ("eps.ciphers", "sourcing.milenage"))

SET_FIELDS = "k rand sqn amf op opc f1 f1_star f2 f5 f3 f4 f5_star".split()
SETS = """
465b5ce8b199b49faa5f0a2ee238a6bc 23553cbe9637a89d218ae64dae47bf35 ff9bb4d0b607 b9b9 cdc202d5123e20f62b6d676ac72cb318
cd63cb71954a9f4e48a5994e37a02baf 4a9ffac354dfafb3 01cfaf9ec4e871e9 a54211d5e3ba50bf aa689c648370
b40ba9a3c58b2a05bbf0d987b21bf8cb f769bcd751044604127672711c6d3441 451e8beca43b

fec86ba6eb707ed08905757b1bb44b8f 9f7c8d021accf4db213ccff0c7f71a6a 9d0277595ffc 725c dbc59adcb6f9a0ef735477b7fadf8374
1006020f0a478bf6b699f15c062e42b3 9cabc3e99baf7281 95814ba2b3044324 8011c48c0c214ed2 33484dc2136b
5dbdbb2954e8f3cde665b046179a5098 59a92d3b476a0443487055cf88b2307b deacdd848cc6

9e5944aea94b81165c82fbf9f32db751 ce83dbc54ac0274a157c17f80d017bd6 0b604a81eca8 9e09 223014c5806694c007ca1eeef57f004f
a64a507ae1a2a98bb88eb4210135dc87 74a58220cba84c49 ac2cc74a96871837 f365cd683cd92e96 f0b9c08ad02e
e203edb3971574f5a94b0d61b816345d 0c4524adeac041c4dd830d20854fc46b 6085a86c6f63

4ab1deb05ca6ceb051fc98e77d026a84 74b0cd6031a1c8339b2b6ce2b8c4a186 e880a1b580b6 9f07 2d16c5cd1fdf6b22383584e3bef2a8d8
dcf07cbd51855290b92a07a9891e523e 49e785dd12626ef2 9e85790336bb3fa2 5860fc1bce351e7e 31e11a609118
7657766b373d1c2138f307e3de9242f9 1c42e960d89b8fa99f2744e0708ccb53 fe2555e54aa9

6c38a116ac280c454f59332ee35c8c4f ee6466bc96202c5a557abbeff8babf63 414b98222181 4464 1ba00a1a7c6700ac8c3ff3e96ad08725
3803ef5363b947c6aaa225e58fae3934 078adfb488241a57 80246b8d0186bcf1 16c8233f05a0ac28 45b0f69ab06c
3f8c7587fe8e4b233af676aede30ba3b a7466cc1e6b2a1337d49d3b66e95d7b4 1f53cd2b1113

2d609d4db0ac5bf0d2c0de267014de0d 194aa756013896b74b4a2a3b0af4539e 6bf69438c2e4 5f67 460a48385427aa39264aac8efc9e73e8
c35a0ab0bcbfc9252caff15f24efbde0 bd07d3003b9e5cc3 bcb6c2fcad152250 8c25a16cd918a1df 7e6455f34cf3
4cd0846020f8fa0731dd47cbdc6be411 88ab80a415f15c73711254a1d388f696 dc6dd01e8f15
"""


def test_sets():
    for text in SETS.strip().split("\n\n"):
        yield dict(zip(SET_FIELDS, map(bytes.fromhex, text.split()), strict=True))


FIRST = next(test_sets())
SIM = ["--imsi", "001010000000001", "--plmn", "001", "01", "--k", FIRST["k"].hex(), "--op", FIRST["op"].hex()]


def lines(*words):
    """What the tool prints for the SIM of the first set."""
    done = tools.ran("vectors", *SIM, *words)
    assert done.returncode == 0 and not done.stderr, done.stderr
    return done.stdout.decode().splitlines()


def sqns(*words):
    return [line.removeprefix("# SQN ") for line in lines(*words) if line.startswith("# SQN")]


class Parts(unittest.TestCase):
    def test_aes(self):
        """FIPS 197 appendix B and appendix C.1."""
        for key, plain, cipher in (
                ("2b7e151628aed2a6abf7158809cf4f3c", "3243f6a8885a308d313198a2e0370734", "3925841d02dc09fbdc118597196a0b32"),
                ("000102030405060708090a0b0c0d0e0f", "00112233445566778899aabbccddeeff", "69c4e0d86a7b0430d8cdb78070b4c55a")):
            with self.subTest(key=key):
                self.assertEqual(MILENAGE.aes(bytes.fromhex(key), bytes.fromhex(plain)).hex(), cipher)

    def test_round_keys(self):
        """FIPS 197 appendix A.1: the last round's key."""
        keys = CIPHERS.round_keys(bytes.fromhex("2b7e151628aed2a6abf7158809cf4f3c"))
        self.assertEqual("%032x" % keys[10], "d014f9a8" "c9ee2589" "e13f0cc8" "b6630ca6")

    def test_cmac(self):
        """RFC 4493 clause 4, examples 1 to 4."""
        cmac = CIPHERS.Cmac(bytes.fromhex("2b7e151628aed2a6abf7158809cf4f3c"))
        text = bytes.fromhex("6bc1bee22e409f96e93d7e117393172aae2d8a571e03ac9c9eb76fac45af8e51"
                             "30c81c46a35ce411e5fbc1191a0a52eff69f2445df4f9b17ad2b417be66c3710")
        for size, mac in ((0, "bb1d6929e95937287fa37d129b756746"), (16, "070a16b46b4d4144f79bdd9dd04a287c"),
                          (40, "dfa66747de9ae63030ca32611497c827"), (64, "51f0bebf7e3b9d92fc49741779363cfe")):
            with self.subTest(size=size):
                self.assertEqual(cmac.of(text[:size]).hex(), mac)

    def test_hmac(self):
        """HMAC by RFC 4231 clause 4.3, and the derivation on it by the second one."""
        digest = hmac.new(b"Jefe", b"what do ya want for nothing?", hashlib.sha256).hexdigest()
        self.assertEqual(digest, "5bdcc146bf60754e6a042426089575c75a003f089d2739839dec58b964ec3843")
        parameters = bytes.fromhex("00f110"), bytes.fromhex("55f328b43577")
        key = bytes(range(32))
        self.assertEqual(CIPHERS.derived(key, 0x10, *parameters), LTE.derived(key, 0x10, *parameters))

    def test_milenage(self):
        for number, given in enumerate(test_sets(), 1):
            with self.subTest(set=number):
                opc = VECTORS.operator_key(given["k"], given["op"])
                self.assertEqual(opc, given["opc"])
                got = VECTORS.milenage(given["k"], opc, given["rand"], given["sqn"], given["amf"])
                self.assertEqual(got._asdict(), {name: given[name] for name in VECTORS.Functions._fields})

    def test_plmn(self):
        """TS 24.301 clause 9.9.3.12: two digits of a network code go with the filler, three stand 2, 1 after 3."""
        self.assertEqual(VECTORS.plmn_octets("001", "01").hex(), "00f110")
        self.assertEqual(VECTORS.plmn_octets("208", "93").hex(), "02f839")
        self.assertEqual(VECTORS.plmn_octets("310", "410").hex(), "130014")


class Lines(unittest.TestCase):
    def test_a_line(self):
        given = FIRST
        [comment, line] = lines("--sqn", given["sqn"].hex(), "--amf", "b9b9", "--rand", given["rand"].hex())
        word, imsi, rand, autn, xres, kasme = line.split(" ")
        self.assertEqual((word, imsi, rand, xres), ("vec", "001010000000001", given["rand"].hex(), given["f2"].hex()))
        concealed = bytes(x ^ y for x, y in zip(given["sqn"], given["f5"]))
        self.assertEqual(autn, (concealed + given["amf"] + given["f1"]).hex())
        self.assertEqual(kasme, LTE.derived(given["f3"] + given["f4"], 0x10, b"\x00\xf1\x10", concealed).hex())
        self.assertEqual(comment, "# SQN ff9bb4d0b607")

    def test_op_and_opc(self):
        words = ["--sqn", "000000000020", "--seed", "x"]
        with_opc = tools.ran("vectors", *SIM[:-2], "--opc", FIRST["opc"].hex(), *words)
        self.assertEqual(with_opc.stdout.decode().splitlines(), lines(*words))

    def test_functions(self):
        printed = lines("--sqn", "ff9bb4d0b607", "--amf", "b9b9", "--rand", FIRST["rand"].hex(), "--functions")
        self.assertIn("# OPc " + FIRST["opc"].hex(), printed)
        self.assertIn("# f1* 01cfaf9ec4e871e9", printed)
        self.assertIn("# f5* 451e8beca43b", printed)

    def test_what_rises(self):
        for words, wanted in (
                ((), ["000000000025", "000000000045", "000000000065"]),
                (("--ind", "cycle"), ["000000000025", "000000000046", "000000000067"]),
                (("--ind-bits", "0"), ["000000000025", "000000000026", "000000000027"]),
                (("--ind-bits", "1", "--ind", "cycle"), ["000000000025", "000000000026", "000000000029"])):
            with self.subTest(words=words):
                self.assertEqual(sqns("--sqn", "000000000025", "--count", "3", "--seed", "x", *words), wanted)

    def test_rands(self):
        """By chance they differ from run to run; from a text they don't, and are distinct."""
        words = ["--sqn", "000000000020", "--count", "3"]
        self.assertNotEqual(lines(*words), lines(*words))
        seeded = lines(*words, "--seed", "a")
        self.assertEqual(seeded, lines(*words, "--seed", "a"))
        self.assertEqual(len({line.split()[2] for line in seeded if line.startswith("vec")}), 3)

    def test_auts(self):
        """A phone at SQN ff9bb4d0b607 answers with it concealed by f5*, and with f1* over AMF 0000; the next vector comes after it."""
        given = FIRST
        functions = VECTORS.milenage(given["k"], given["opc"], given["rand"], given["sqn"], bytes(2))
        auts = bytes(x ^ y for x, y in zip(given["sqn"], functions.f5_star)) + functions.f1_star
        self.assertEqual(sqns("--auts", auts.hex(), "--rand", given["rand"].hex(), "--seed", "x"), ["ff9bb4d0b627"])
        turned = bytes([auts[0] ^ 1]) + auts[1:]
        done = tools.ran("vectors", *SIM, "--auts", turned.hex(), "--rand", given["rand"].hex())
        self.assertEqual(done.returncode, 2)
        self.assertIn(b"MAC-S", done.stderr)

    def test_autn(self):
        """The AUTN of the first set with its RAND names that set's SQN and AMF; the vector is the same, others follow."""
        given = FIRST
        concealed = bytes(x ^ y for x, y in zip(given["sqn"], given["f5"]))
        autn = concealed + given["amf"] + given["f1"]
        words = ["--autn", autn.hex(), "--rand", given["rand"].hex()]
        self.assertEqual(lines(*words), lines("--sqn", given["sqn"].hex(), "--amf", "b9b9", "--rand", given["rand"].hex()))
        self.assertEqual(sqns(*words, "--count", "2"), ["ff9bb4d0b607", "ff9bb4d0b627"])
        turned = autn[:-1] + bytes([autn[-1] ^ 1])
        done = tools.ran("vectors", *SIM, "--autn", turned.hex(), *words[2:])
        self.assertEqual(done.returncode, 2)
        self.assertIn(b"MAC in the AUTN", done.stderr)

    def test_words_of_a_file(self):
        with tempfile.NamedTemporaryFile("w") as file:
            file.write("# a SIM\n%s  # its words\n" % " ".join(SIM))
            file.flush()
            done = tools.ran("vectors", "@" + file.name, "--sqn", "000000000020", "--seed", "x")
        self.assertEqual(done.stdout.decode().splitlines(), lines("--sqn", "000000000020", "--seed", "x"))

    def test_files_that_name_files(self):
        """A file of words may name others, and one of them twice; none names itself, and there is an end to what they have."""
        folder = self.enterContext(tempfile.TemporaryDirectory())

        def named(name, text=None):
            path = pathlib.Path(folder, name)
            if text is not None:
                path.write_text(text)
            return "@%s" % path

        seed = named("seed", "x")
        given = named("given", "%s # the SIM\n--sqn 000000000020 --seed %s --amf 8000" % (named("sim", " ".join(SIM)), seed))
        self.assertEqual(tools.ran("vectors", given).stdout.decode().splitlines(), lines("--sqn", "000000000020", "--seed", "x"))
        chain = [named("%d" % place, named("%d" % (place + 1))) for place in range(9)]
        wide = named("wide", " ".join([seed] * 500))
        more = "have more than 65536 octets"
        for word, told in ((named("itself", "# words\n" + named("itself")), "itself: a file of words that names itself"),
                           (named("one", named("other", named("one"))), "one: a file of words that names itself"),
                           (chain[0], "/8: a file of words within more than 7 others"), (named("long", "--seed x\n" * 8000), more),
                           (named("fan", " ".join([wide] * 500)), more), ("@/dev/zero", "/dev/zero: files of words " + more)):
            with self.subTest(told=told):
                self.check_refused(word, told)

    def check_refused(self, word, told):
        done = tools.ran("vectors", word)
        self.assertEqual((done.returncode, done.stdout), (2, b""))
        self.assertTrue(done.stderr.decode().splitlines()[-1].startswith("vectors: error: "), done.stderr)
        self.assertIn(told, done.stderr.decode())

    def test_separation_bit(self):
        done = tools.ran("vectors", *SIM, "--sqn", "000000000020", "--amf", "7fff")
        self.assertEqual(done.returncode, 0)
        self.assertIn(b"separation bit", done.stderr)


class Library(unittest.TestCase):
    def test_sim(self):
        """The SIM of soizkadur.standards takes its functions from tools/sourcing: it answers a vector, refuses it a second time
        with AUTS, and its home goes on after that."""
        program = """if True:
            from soizkadur.standards.sim import Sim
            sim = Sim(bytes.fromhex("%s"), bytes.fromhex("%s"), sqn=1 << 20)
            first = sim.vector()
            sim.home = 0
            again = sim.answer(first.rand, first.autn), sim.answer(first.rand, first.autn)
            sim.resynchronises(first.rand, again[1].auts)
            later = sim.vector()
            assert (again[0].res, again[1].cause, sim.answer(later.rand, later.autn).res) == (first.xres, 21, later.xres)
            assert sim.answer(later.rand, later.autn[:-1] + bytes([later.autn[-1] ^ 1])).cause == 20
        """ % (FIRST["k"].hex(), FIRST["opc"].hex())
        done = subprocess.run([sys.executable, "-B", "-c", program], capture_output=True, text=True, timeout=60, check=False,
                              env={**os.environ, "PYTHONPATH": str(tools.TOP / "python")})
        self.assertEqual((done.returncode, done.stderr), (0, ""))


class Lists(unittest.TestCase):
    def setUp(self):
        self.sets = [{name: value.hex() for name, value in given.items()} for given in test_sets()]
        self.imsis = ["00101%010d" % number for number in range(1, 1 + len(self.sets))]

    def printed(self, text, *words, status=0):
        """What is printed for a list on standard input, and said of it."""
        done = tools.ran("vectors", "--sims", "-", "--plmn", "001", "01", *words, given=text.encode())
        self.assertEqual(done.returncode, status, done)
        return done.stdout.decode(), done.stderr.decode()

    def test_the_sets(self):
        """The SIMs of all six sets, each from its own SQN: OPc, AUTN and the challenge's answer are those of the sets, by RAND."""
        for given, imsi in zip(self.sets, self.imsis):
            text = "# a set\n\n %s\t%s %s %s # its SQN\n" % (imsi, given["k"], given["opc"], given["sqn"])
            out, said = self.printed(text, "--amf", "8000", "--seed", "x")
            alone = tools.ran("vectors", "--imsi", imsi, "--plmn", "001", "01", "--k", given["k"], "--op", given["op"], "--sqn",
                              given["sqn"], "--seed", "x " + imsi)
            self.assertEqual((out, said), (alone.stdout.decode(), ""))
            sqn, vector = out.splitlines()
            self.assertEqual(sqn, "# SQN " + given["sqn"])
            word, told, rand, autn, xres, _ = vector.split(" ")
            functions = VECTORS.milenage(*(bytes.fromhex(each) for each in (given["k"], given["opc"], rand, given["sqn"], "8000")))
            self.assertEqual((word, told, autn[12:], xres), ("vec", imsi, "8000" + functions.f1.hex(), functions.f2.hex()))

    def test_in_order(self):
        """A list of a file: its SIMs in their order, with the SQN of their line, else that of --sqn; the same as one by one."""
        lines = ["%s %s %s" % (imsi, given["k"], given["opc"]) for given, imsi in zip(self.sets, self.imsis)]
        lines[1] += " 0000000000FF"
        with tempfile.NamedTemporaryFile("w") as file:
            file.write("\n".join(lines))
            file.flush()
            words = ["--plmn", "001", "01", "--sqn", "000000000020", "--count", "2", "--seed", "lab"]
            done = tools.ran("vectors", "--sims", file.name, *words)
            self.assertEqual((done.returncode, done.stderr), (0, b""))
            self.assertEqual(tools.ran("vectors", "--sims=" + file.name, *words).stdout, done.stdout)
        printed = done.stdout.decode().splitlines()
        self.assertEqual([line.split()[1] for line in printed if line[0] == "v"], [imsi for imsi in self.imsis for _ in range(2)])
        wanted = ["000000000020", "000000000040"] + ["0000000000ff", "00000000011f"] + ["000000000020", "000000000040"] * 4
        self.assertEqual([line.removeprefix("# SQN ") for line in printed if line[0] == "#"], wanted)
        self.assertEqual(len({line.split()[2] for line in printed if line[0] == "v"}), 12)

    def test_faults(self):
        """Nothing is printed for a list with a fault, which is told with its line."""
        good = "%s %s %s" % (self.imsis[0], self.sets[0]["k"], self.sets[0]["opc"])
        other = good.replace(self.imsis[0], self.imsis[1])
        sqn = ("--sqn", "000000000020")
        for text, words, told in (
                (good, (), "-: line 1: the SIM has no SQN, and there is no --sqn"),
                ("%s 000000000020\n\n%s" % (good, other), (), "-: line 3: the SIM has no SQN, and there is no --sqn"),
                ("# SIMs\n%s\n%s\n" % (good, good), sqn, "-: line 3: IMSI 001010000000001 stands in line 2 already"),
                (good + "\n00101 1 2", sqn, "-: line 2: '00101' isn't 14 or 15 digits"),
                (good + "\n" + other[:-1], sqn, "isn't 16 octets in hex, which are 32 digits: here are 31"),
                (good + "\n" + other + " 20", sqn, "with its zeros, 20 is 000000000020"),
                (good + "\n" + other + " ffffffffffe0", (*sqn, "--count", "2"), "-: line 2: the SQN after ffffffffffe0 has more"),
                (good + "\n" + other + " 000000000020 x", sqn,
                 "-: line 2: a SIM has the fields IMSI, K, OPc and perhaps SQN, and here are 5"),
                (good + "\nx", sqn, "and here are 1"), ("# nobody\n", sqn, "-: there is no SIM in it"),
                (good, (*sqn, "--imsi", self.imsis[0]), "--imsi isn't taken with --sims"),
                (good, (*sqn, "--rand", "00" * 16), "--rand isn't taken with --sims"),
                (good, (*sqn, "--op", "00" * 16), "--op isn't taken with --sims")):
            with self.subTest(told=told):
                out, said = self.printed(text, *words, status=2)
                self.assertEqual(out, "")
                self.assertIn(told, said.splitlines()[-1])
        done = tools.ran("vectors", "--sims", "/nowhere", "--plmn", "001", "01")
        self.assertEqual((done.returncode, done.stdout), (2, b""))
        self.assertIn(b"/nowhere: No such file", done.stderr)

    def test_separation_bit(self):
        """It is warned of once."""
        sims = [(imsi, given["k"], given["opc"], given["sqn"]) for given, imsi in zip(self.sets, self.imsis)]
        text = "".join("%s %s %s %s\n" % sim for sim in sims)
        _, said = self.printed(text, "--amf", "7fff")
        self.assertEqual(said.count("separation bit"), 1)


class Faults(unittest.TestCase):
    def test_words(self):
        """Each ends with status 2, a text and no trace-back."""
        sqn = ["--sqn", "000000000020"]
        for words, told in (
                (SIM, b"--sqn"),
                (SIM + ["--sqn", "20"], b"6 octets"),
                (SIM + ["--sqn", "00000000002g"], b"isn't hex"),
                (SIM + ["--sqn", "20"], b"'20' isn't 6 octets in hex, which are 12 digits: here are 2; with its zeros, 20 is "
                 b"000000000020"),
                (SIM + ["--sqn", "fff"], b"here are 3; with its zeros, fff is 000000000fff"),
                (SIM + ["--sqn", "00000000000020"], b"isn't 6 octets in hex, which are 12 digits: here are 14\n"),
                (SIM + ["--sqn", "00 0000000020"], b"6 octets"),
                (SIM + sqn + ["--count", "65"], b"from 1 to 64"),
                (SIM + sqn + ["--count", "x"], b"from 1 to 64"),
                (SIM + sqn + ["--opc", "00" * 16], b"not allowed with"),
                (SIM + sqn + ["--plmn", "1", "01"], b"3 digits"),
                (SIM + sqn + ["--imsi", "0010100000000012"], b"14 or 15 digits"),
                (SIM + sqn + ["--count", "2", "--rand", "00" * 16], b"as many --rand"),
                (SIM + ["--auts", "00" * 14], b"need the RAND"),
                (SIM + ["--autn", "00" * 16], b"need the RAND"),
                (SIM + ["--autn", "00" * 15], b"16 octets"),
                (SIM + ["--sqn", "ffffffffffe0", "--count", "2"], b"more than 48 bits"),
                (["@/nowhere"], b"No such file"),
                (["@" + str(tools.TOP)], b"directory")):
            with self.subTest(words=words):
                done = tools.ran("vectors", *words)
                self.assertEqual(done.returncode, 2)
                self.assertIn(told, done.stderr)
                self.assertNotIn(b"Traceback", done.stderr)
                self.assertEqual(done.stdout, b"")
