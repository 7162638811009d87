"""deploy/: that systemd takes the unit and finds few rights in it, that the words in both files are the front's, what the service
manager is told, that the container's files are all that a front needs and its health check tells whether it serves, that
deploy/README.md's words for podman fit them; and, where the program is built, that what the commands of that page put into place
serves by the unit's words."""
import argparse
import contextlib
import json
import os
import pathlib
import re
import shlex
import shutil
import signal
import socket
import subprocess
import sys
import tempfile
import time
import unittest
import unittest.mock

from tests.tools import tools
from tests.tools.fronted import HEAD, IMSI, STAND_IN, Running
from tools import runs
from tools.diameter import command as s6a_command
from tools.fronting import command, faults, limits
from tools.sourcing import private
from tools.sourcing.words import Fault
from tools.tunnels import command as gateway_command, limits as gateway_limits

UNIT, CONTAINER, README = (tools.TOP / "deploy" / name for name in ("soizkadur@.service", "Containerfile", "README.md"))
GATEWAY = tools.TOP / "deploy" / "soizkadur-gateway@.service"
PACKAGE = tools.TOP / "deploy" / "package"
INSTALLED = "/opt/soizkadur/"
BUILT = "crates/mme/out/mme"
LOG_FILES = {"trace", "trace.counts", "trace.used", "trace.lock"}
MIB = 1 << 20


def analyzed(*words, path=UNIT):
    """What systemd-analyze says of a unit, with the tools of this checkout in it."""
    with tempfile.TemporaryDirectory() as folder:
        unit = pathlib.Path(folder, path.name)
        unit.write_text(path.read_text().replace(INSTALLED + "tools", str(tools.TOP / "tools")))
        return subprocess.run(["systemd-analyze", *words, unit], capture_output=True, timeout=60, check=False)


def analyzed_with(more):
    """What systemd-analyze finds wrong in the front's unit with a file of more lines."""
    with tempfile.TemporaryDirectory() as folder:
        unit, place = pathlib.Path(folder, UNIT.name), pathlib.Path(folder, UNIT.name + ".d")
        unit.write_text(UNIT.read_text().replace(INSTALLED + "tools", str(tools.TOP / "tools")))
        place.mkdir()
        shutil.copy(more, place)
        return subprocess.run(["systemd-analyze", "verify", unit], capture_output=True, timeout=60, check=False)


def lines_of(path):
    """The lines of a unit by their words; of several with a word the last."""
    return dict(re.findall(r"^(\w+)=(.*)$", path.read_text(), re.MULTILINE))


def front_words(**values):
    """The words of the unit's front, with what systemd and the file beside it put in."""
    [line] = re.findall("^ExecStart=(.*)$", UNIT.read_text(), re.MULTILINE)
    for name, text in (("%i", "01"), ("%t", values["runtime"]), ("%S", values["state"]),
                       ("${ADDRESS}", values["address"]), ("$WORDS", values["words"])):
        assert name in line, name
        line = line.replace(name, text)
    return shlex.split(line)


class Unit(unittest.TestCase):
    @unittest.skipUnless(shutil.which("systemd-analyze"), "no systemd-analyze")
    def test_verify(self):
        done = analyzed("verify")
        self.assertEqual((done.returncode, done.stdout, done.stderr), (0, b"", b""))

    @unittest.skipUnless(shutil.which("systemd-analyze"), "no systemd-analyze")
    def test_rights(self):
        """An exposure of 1.5 of 10 at the most, by systemd's own count; a unit of no lines has 9.6."""
        done = analyzed("security", "--offline=yes", "--threshold=15", "--no-pager")
        if b"unrecognized option" in done.stderr:
            self.skipTest("a systemd-analyze before version 250")
        self.assertEqual(done.returncode, 0, done.stdout.decode()[-400:])

    def test_words(self):
        """The front takes them."""
        program, *words = front_words(runtime="/run", state="/var/lib", address="192.0.2.1", words="--tcp --rate 500")
        self.assertEqual(program, INSTALLED + "tools/front")
        given = command.parser("").parse_args(words)
        self.assertEqual((given.code, *map(str, given.listen), given.tcp, given.rate, given.keep), ("01", "192.0.2.1", True, 500, 7))
        self.assertEqual((given.subscribers, given.log, given.control),
                         ("-", "/var/lib/soizkadur/01/trace", "/run/soizkadur/01/control"))

    def test_subscribers(self):
        """Root's file is the service's standard input, which has no limit; a credential has one of a mebibyte (systemd.exec(5)),
        and a copy would be one more file with keys. A front that reads more than that so serves, and reads none of it from a
        path."""
        lines = dict(re.findall(r"^(\w+)=(.*)$", UNIT.read_text(), re.MULTILINE))
        self.assertEqual(lines.get("StandardInput"), "file:/etc/soizkadur/%i.subscribers")
        self.assertNotIn("LoadCredential", lines)
        folder = pathlib.Path(self.enterContext(tempfile.TemporaryDirectory()))
        many = "".join("sub 00101%010d 0a%06x 0b000001 %08x\n" % (slot, slot, slot) for slot in range(1, 25000))
        (folder / "given").write_text(HEAD.splitlines()[0] + "\n" + many)
        self.assertGreater((folder / "given").stat().st_size, MIB)
        (folder / "mme").write_text(STAND_IN)
        (folder / "mme").chmod(0o755)
        program, *words = front_words(runtime=str(folder), state=str(folder), address="127.0.0.1", words="--tcp --port 0")
        (folder / "soizkadur/01").mkdir(parents=True)
        with (open(folder / "given", "rb") as given, subprocess.Popen(
                [tools.TOP / program.removeprefix(INSTALLED), *words, "--mme", folder / "mme"], stdin=given,
                stderr=subprocess.DEVNULL) as running):
            (folder / "given").unlink()
            done = subprocess.run([tools.TOP / "tools/front", "ask", folder / "soizkadur/01/control", "show", "001010000024999",
                                   "--wait", "60"], capture_output=True, timeout=100, check=False)
            running.terminate()
        self.assertEqual(done.stdout, b"state 001010000024999 DEREGISTERED IDLE INACTIVE\n")
        self.assertEqual(running.returncode, 0)

    def test_limits(self):
        """Memory, tasks, files and disk are limited, with room for all that the front takes at most; the log's is as it says."""
        text = UNIT.read_text()
        lines = dict(re.findall(r"^(\w+)=(.*)$", text, re.MULTILINE))
        self.assertLessEqual({"MemoryMax", "TasksMax", "LimitNOFILE", "LimitFSIZE"}, set(lines))
        guests = limits.MOST_ASKING + limits.MOST_BROWSING
        self.assertGreater(int(lines["LimitNOFILE"]), 2 * (runs.STATIONS + guests))
        sizes = [int(lines[name].removesuffix("G")) << 30 for name in ("MemoryMax", "LimitFSIZE")]
        self.assertGreater(sizes[0], runs.STATIONS * limits.MOST_WAITING + guests * limits.MOST_TOLD)
        self.assertGreater(sizes[1], 2 * limits.SEGMENT_SIZE * MIB)
        self.assertIn("at most %d segments of %d MiB of each of its two series" % (limits.SEGMENTS, limits.SEGMENT_SIZE), text)

    def test_statuses(self):
        """What the front ends with is started again where README.md says so: all but what stays wrong, and an end that was asked
        for."""
        text = UNIT.read_text()
        lines = dict(re.findall(r"^(\w+)=(.*)$", text, re.MULTILINE))
        rows = re.findall(r"^\| (\d+) \| .* \| (yes|no) \|$", README.read_text(), re.MULTILINE)
        statuses = {int(status): again == "yes" for status, again in rows}
        passing = dict.fromkeys((faults.BABBLES, faults.LOG_FAILS, faults.NOT_YET, faults.SILENT), True)
        self.assertEqual(statuses, {0: False, faults.WRONG: False, **passing})
        self.assertEqual((lines["Restart"], lines["RestartPreventExitStatus"], lines["StartLimitIntervalSec"]),
                         ("on-failure", str(faults.WRONG), "0"))

    def test_told(self):
        """The service manager hears that the front is ready, that it still turns, and that it ends (sd_notify(3)); of one that
        stands still it hears nothing."""
        text = UNIT.read_text()
        self.assertRegex(text, r"\nType=notify\n")
        self.assertRegex(text, r"\nWatchdogSec=\d+\n")
        folder = self.enterContext(tempfile.TemporaryDirectory())
        manager = self.enterContext(socket.socket(socket.AF_UNIX, socket.SOCK_DGRAM))
        manager.bind(folder + "/notify")
        manager.settimeout(20)
        with unittest.mock.patch.dict(os.environ, NOTIFY_SOCKET=folder + "/notify", WATCHDOG_USEC="200000"):
            running = Running(self)
        self.assertEqual(manager.recv(100), b"READY=1")
        self.assertEqual(manager.recv(100), b"WATCHDOG=1\nSTATUS=0 stations")
        running.station()
        while manager.recv(100) != b"WATCHDOG=1\nSTATUS=1 station":
            pass
        running.process.send_signal(signal.SIGSTOP)
        self.assertTrue(self.is_silent(manager))
        running.process.send_signal(signal.SIGCONT)
        manager.settimeout(20)
        self.assertEqual(manager.recv(100), b"WATCHDOG=1\nSTATUS=1 station")
        self.assertEqual(running.stop()[0], 0)
        while manager.recv(100) != b"STOPPING=1":
            pass

    @staticmethod
    def is_silent(manager):
        """Whether nothing comes in five times the time between two words, after what was under way."""
        manager.settimeout(0.5)
        with contextlib.suppress(TimeoutError):
            for _ in range(10):
                manager.recv(100)
            return False
        return True

    def test_folders(self):
        """README.md says of each folder that the unit writes to and reads who makes it; and no command of systemd's part is of a
        clone alone, by its path or by the file that it needs."""
        lines = dict(re.findall(r"^(\w+)=(.*)$", UNIT.read_text(), re.MULTILINE))
        text = README.read_text()
        folders = "`/var/lib/%s` and `/run/%s`" % tuple(
            lines[name].replace("%i", "01") for name in ("StateDirectory", "RuntimeDirectory"))
        [row] = [line for line in text.splitlines() if line.startswith("| %s" % folders)]
        self.assertIn("made by systemd when `soizkadur@01` starts", row)
        [part] = re.findall(r"^## systemd\n(.*?)^## ", text, re.MULTILINE | re.DOTALL)
        commands = re.findall("^    (.*)$", part, re.MULTILINE)
        self.assertGreater(len(commands), 10)
        self.assertEqual([line for line in commands if re.search(r"/opt/|tools/|deploy/|crates/|\./mme", line)], [])

    @unittest.skipUnless((tools.TOP / BUILT).exists(), "the program isn't built (./mme --prove)")
    def test_commands(self):
        """Twice, so that the second run goes on after the first."""
        folder = self.enterContext(tempfile.TemporaryDirectory())
        place, log = folder + "/soizkadur/01/", pathlib.Path(folder, "soizkadur/01/trace")
        commands = re.findall("^    sudo ((?:install|ln) .*/opt/.*)", README.read_text(), re.MULTILINE)
        text = "\n".join(commands).replace("/opt", folder + "/opt").replace("/usr/local/bin", folder)
        subprocess.run(["sh", "-eu", "-c", text], cwd=tools.TOP, check=True)
        pathlib.Path(place).mkdir(parents=True)
        pathlib.Path(folder, "subscribers").write_text(HEAD)
        program, *words = front_words(runtime=folder, state=folder, address="127.0.0.1", words="--tcp --port 0")
        for count in range(2):
            with (open(folder + "/subscribers", "rb") as given,
                  subprocess.Popen([folder + program, *words], stdin=given, stderr=subprocess.DEVNULL) as running):
                done = subprocess.run([folder + "/mme-front", "ask", place + "control", "show", IMSI, "--wait", "20"],
                                      capture_output=True, timeout=60, check=False)
                self.assertEqual(done.stdout.decode(), "state %s DEREGISTERED IDLE INACTIVE\n" % IMSI)
                running.terminate()
            self.assertEqual(running.returncode, 0)
            self.assertEqual({path.name for path in pathlib.Path(place).glob("trace*")}, LOG_FILES)
            played = subprocess.run([folder + "/mme", "play", log], capture_output=True, timeout=60, check=False)
            self.assertEqual(played.stdout, done.stdout * (count + 1))


class Standby(unittest.TestCase):
    """What deploy/standby adds to the unit; test_front_etcd sets members of etcd and fronts up by its files."""

    FOLDER = tools.TOP / "deploy" / "standby"

    def words(self):
        """Of 01.environment, as systemd reads them."""
        [words] = re.findall(r"^WORDS=((?:.*\\\n)*.*)", (self.FOLDER / "01.environment").read_text(), re.MULTILINE)
        return words.replace("\\\n", " ")

    def credentials(self):
        """The files that the service may read, by the places where it finds them."""
        pairs = re.findall("^LoadCredential=(.*):(.*)$", (self.FOLDER / "store.conf").read_text(), re.MULTILINE)
        return {"/run/credentials/soizkadur@01.service/" + name: path for name, path in pairs}

    def test_words(self):
        """The front takes them. Each file that they name is one of the credentials, and by the commands it is there."""
        _, *words = front_words(runtime="/run", state="/var/lib", address="198.51.100.1", words=self.words())
        given = command.parser("").parse_args(words)
        self.assertEqual((given.store.count("https://"), given.standby, given.store_user), (3, True, "mme"))
        self.assertEqual({given.store_ca, given.store_cert, given.store_password}, set(self.credentials()))
        text = (self.FOLDER / "01.environment").read_text()
        [(place, names)] = re.findall("sudo install .* -t (/etc/soizkadur/store) (.*)$", text, re.MULTILINE)
        self.assertEqual({"%s/%s" % (place, pathlib.Path(name).name) for name in names.split()}, set(self.credentials().values()))

    def test_address(self):
        """What asks the page who leads asks where the page is, and knows what it says."""
        text = (self.FOLDER / "keepalived.conf").read_text()
        self.assertIn("http://%s/health" % re.search(r"--page (\S+)", self.words())[1], text)
        self.assertIn("grep -q serves", text)

    @unittest.skipUnless(shutil.which("systemd-analyze"), "no systemd-analyze")
    def test_verify(self):
        """The unit with what is added."""
        done = analyzed_with(self.FOLDER / "store.conf")
        self.assertEqual((done.returncode, done.stdout, done.stderr), (0, b"", b""))


class Source(unittest.TestCase):
    """What deploy/source adds to the unit, of which `mme-vectors` and `mme-s6a` are a package's."""

    FOLDER = tools.TOP / "deploy" / "source"

    def source(self, words):
        """The words of a front's source, as the front reads them."""
        _, *words = front_words(runtime="/run", state="/var/lib", address="192.0.2.1", words=words)
        given = command.parser("").parse_args(words)
        command.read_source(given)
        self.assertEqual((given.library, str(given.add.network)), (True, "10.45.0.0/16"))
        return given.source

    def test_words(self):
        """The front takes them, and each source its own; the SIMs are the credential, and their SQNs stand where the service may
        write."""
        text = (self.FOLDER / "01.environment").read_text()
        [words] = re.findall(r"^WORDS=((?:.*\\\n)*.*)", text, re.MULTILINE)
        [(name, path)] = re.findall("^LoadCredential=(.*):(.*)$", (self.FOLDER / "source.conf").read_text(), re.MULTILINE)
        state = "/var/lib/%s/" % lines_of(UNIT)["StateDirectory"].replace("%i", "01")
        program, *given = self.source(words.replace("\\\n", " "))
        self.assertEqual((program, given), ("mme-vectors", [
            "serve", "/run/credentials/soizkadur@01.service/" + name, state + "sqns"]))
        self.assertIn("sudo install -D -m 600 sims %s\n" % path.replace("%i", "01"), text)
        [asked] = re.findall("^# +(--source .*)$", text, re.MULTILINE)
        program, *given = self.source(words.partition("\\")[0] + asked)
        self.assertEqual((program, s6a_command.parser("").parse_args(given).plmn), ("mme-s6a", ("001", "01")))

    def test_credential(self):
        """A credential may be its group's to read as far as its mode says, and no other file; none may be written by others."""
        folder = pathlib.Path(self.enterContext(tempfile.TemporaryDirectory()))
        for mode, is_taken in ((0o400, (True, True)), (0o440, (True, False)), (0o444, (False, False)), (0o460, (False, False))):
            (folder / "sims").write_bytes(b"")
            (folder / "sims").chmod(mode)
            for named, wanted in zip((folder, folder.parent), is_taken):
                refuses = contextlib.nullcontext() if wanted else self.assertRaisesRegex(Fault, "others than its owner")
                with unittest.mock.patch.dict(os.environ, CREDENTIALS_DIRECTORY=str(named)), self.subTest(mode=oct(mode)), refuses:
                    private.opened(folder / "sims").close()
            (folder / "sims").unlink()

    @unittest.skipUnless(shutil.which("systemd-analyze"), "no systemd-analyze")
    def test_verify(self):
        """The unit with what is added."""
        done = analyzed_with(self.FOLDER / "source.conf")
        self.assertEqual((done.returncode, done.stdout, done.stderr), (0, b"", b""))


class Gateway(unittest.TestCase):
    """The unit of the gateway."""

    @unittest.skipUnless(shutil.which("systemd-analyze"), "no systemd-analyze")
    def test_verify(self):
        done = analyzed("verify", path=GATEWAY)
        self.assertEqual((done.returncode, done.stdout, done.stderr), (0, b"", b""))

    @unittest.skipUnless(shutil.which("systemd-analyze"), "no systemd-analyze")
    def test_rights(self):
        """An exposure of 2 of 10 at the most: it has the network and one right more than the front."""
        done = analyzed("security", "--offline=yes", "--threshold=20", "--no-pager", path=GATEWAY)
        if b"unrecognized option" in done.stderr:
            self.skipTest("a systemd-analyze before version 250")
        self.assertEqual(done.returncode, 0, done.stdout.decode()[-400:])
        lines = lines_of(GATEWAY)
        self.assertEqual((lines["CapabilityBoundingSet"], lines["AmbientCapabilities"]), 2 * ("CAP_NET_ADMIN",))

    def test_words(self):
        """The gateway takes them; it asks at the socket of the front's unit, whose user it has."""
        lines, front = lines_of(GATEWAY), lines_of(UNIT)
        words = lines["ExecStart"].replace("$WORDS", "--page 127.0.0.1:0").replace("${ADDRESS}", "192.0.2.1")
        program, *words = words.replace("${PREFIX}", "10.45.0.0/16").replace("%t", "/run").replace("%i", "01").split(" ")
        self.assertEqual(program, INSTALLED + "tools/gateway")
        given = gateway_command.parser("").parse_args(words)
        self.assertEqual(given.words, ["/run/soizkadur/01/control", "192.0.2.1", "10.45.0.0/16"])
        _, *asked = front_words(runtime="/run", state="/var/lib", address="192.0.2.1", words="")
        self.assertEqual(command.parser("").parse_args(asked).control, given.words[0])
        self.assertEqual((lines["User"], lines["DynamicUser"]), (front["User"], front["DynamicUser"]))
        self.assertEqual(lines["InaccessiblePaths"].split(" "), ["-/var/lib/private/soizkadur", "-/etc/soizkadur"])

    def test_limits(self):
        """There is room for the sockets that it keeps, and for their files."""
        lines = lines_of(GATEWAY)
        self.assertGreater(int(lines["FileDescriptorStoreMax"]), gateway_limits.MOST_STATIONS + 2)
        self.assertGreater(int(lines["LimitNOFILE"]), 2 * gateway_limits.MOST_STATIONS + limits.MOST_BROWSING)
        self.assertEqual((lines["Restart"], lines["RestartPreventExitStatus"], lines["StartLimitIntervalSec"]),
                         ("on-failure", str(faults.WRONG), "0"))


class Package(unittest.TestCase):
    def test_what_it_needs(self):
        """What isn't there is told before anything is made; the help needs none of it."""
        folder = pathlib.Path(self.enterContext(tempfile.TemporaryDirectory()))
        for name in ("python3", "dpkg-deb"):
            (folder / name).symlink_to(sys.executable if name == "python3" else "/bin/true")
        for have, told in ((("python3",), "there is no dpkg-deb here, which makes the Debian package (Debian's package dpkg)"),
                           (("python3", "dpkg-deb"), "no pandoc here, which makes the manual pages (Debian's package pandoc)")):
            with self.subTest(told=told), tempfile.TemporaryDirectory() as path:
                for name in have:
                    pathlib.Path(path, name).symlink_to(folder / name)
                done = subprocess.run([sys.executable, "-B", PACKAGE, pathlib.Path(path, "made")], capture_output=True, text=True,
                                      timeout=60, check=False, env={"PATH": path})
                self.assertEqual((done.returncode, done.stdout), (2, ""))
                self.assertIn(told, done.stderr)
                self.assertFalse(pathlib.Path(path, "made").exists())
                helped = subprocess.run([sys.executable, "-B", PACKAGE, "--help"], capture_output=True, text=True, timeout=60,
                                        check=False, env={"PATH": path})
                self.assertEqual((helped.returncode, helped.stderr), (0, ""))

    def test_where_it_writes(self):
        """Into a folder that git ignores, where none is named."""
        default = tools.module("deploy/package").parser().parse_args([]).folder
        self.assertEqual(default, tools.TOP / "out" / "packages")
        self.assertIn("out/", (tools.TOP / ".gitignore").read_text().splitlines())


class Container(unittest.TestCase):
    def lines(self, word):
        return re.findall("^%s (.*)$" % word, CONTAINER.read_text(), re.MULTILINE)

    def words(self, word):
        """The words of a line that has them as a list."""
        [line] = self.lines(word)
        return json.loads(line[line.index("["):])

    def laid(self):
        """A folder with what the container has, and nothing else: the files that it copies and the folders that it makes."""
        root = pathlib.Path(self.enterContext(tempfile.TemporaryDirectory()))
        for line in self.lines("COPY"):
            *sources, target = line.split()
            for source in sources:
                into = root / (target.lstrip("/") + (pathlib.Path(source).name if target.endswith("/") else ""))
                into.parent.mkdir(parents=True, exist_ok=True)
                if (tools.TOP / source).is_dir():
                    shutil.copytree(tools.TOP / source, into, ignore=shutil.ignore_patterns("__pycache__"))
                elif source != BUILT or (tools.TOP / source).exists():
                    shutil.copy(tools.TOP / source, into)
                else:
                    into.write_text(STAND_IN)
                    into.chmod(0o755)
        [folders] = self.lines("RUN install -d")
        for folder in re.findall(r" (/\S+)", folders):
            (root / folder.lstrip("/")).mkdir(parents=True)
        return root

    @staticmethod
    def within(root, words):
        """Words of the container with its folders below a folder."""
        return [str(root) + word if word.startswith("/") else word for word in words]

    def given(self, *further):
        """The front's words, with those of the file's last line where there are no further ones."""
        _, *words = self.words("ENTRYPOINT")
        return command.parser("").parse_args(words + (list(further) or self.words("CMD")))

    def test_words(self):
        """Where nobody says where it is to listen, it does at its own address alone."""
        given = self.given()
        self.assertEqual((*map(str, given.listen), given.keep, given.log), ("127.0.0.1", 7, "/var/lib/soizkadur/trace"))

    def test_base(self):
        """The image that it is made from has a whole version, and may be given by its digest."""
        [base] = self.lines("ARG")
        self.assertRegex(base, r"^BASE=docker\.io/library/python:3\.11\.\d+-slim-bookworm$")
        self.assertEqual(self.lines("FROM"), ["${BASE}"])

    def test_commands(self):
        """README.md's words for podman fit the file: the options are known ones, and ports, folders and names are the same in
        both. The image keeps its health check, which ends by itself within its time."""
        _, text = README.read_text().split("## A container\n")
        block = "".join(re.findall("^    .*\n", text, re.MULTILINE)).replace("\\\n", "")
        commands = [shlex.split(line) for line in block.splitlines()]
        self.assertEqual([words[:3] for words in commands], [
            ["sudo", "podman", word] for word in ("build", "run", "exec", "healthcheck", "stop", "start")])
        build, run, within, *others = (self.options().parse_args(words[2:]) for words in commands)
        self.assertEqual((build.format, build.folder, tools.TOP / build.file, run.image), ("docker", ".", CONTAINER, build.tag))
        self.assertEqual({given.name for given in (within, *others)}, {run.name})
        self.assertTrue(run.detach)
        front = self.given(*run.words)
        self.assertEqual(list(map(str, front.listen)), ["0.0.0.0"])  # of the container, to which a port of this machine leads
        self.assertEqual(run.publish, ["127.0.0.1:%d:%d/%s" % (front.port, front.port, "tcp" if front.tcp else "sctp")])
        self.assertEqual(self.lines("EXPOSE"), [])
        [subscribers, log] = (volume.split(":") for volume in run.volume)
        self.assertEqual((subscribers[1:], log[1:]), ([front.subscribers, "ro"], self.lines("VOLUME")))
        self.assertEqual(str(pathlib.Path(front.log).parent), log[1])
        entry, *_ = self.words("ENTRYPOINT")
        ends, seconds, *check = self.words("HEALTHCHECK")
        [limit] = re.findall(r"--timeout=(\d+)s", *self.lines("HEALTHCHECK"))
        self.assertEqual(ends, "timeout")
        self.assertLess(int(seconds), int(limit))
        for program, *words in (within.words, check):
            self.assertEqual((program, command.parser("").parse_args(words).control), (entry, front.control))

    @staticmethod
    def options():
        """What podman takes of the words of README.md; docker takes it too, but for the form and the check."""
        whole = argparse.ArgumentParser(allow_abbrev=False)
        commands = whole.add_subparsers(required=True)
        build = commands.add_parser("build", allow_abbrev=False)
        build.add_argument("--format", choices=("docker", "oci"))
        build.add_argument("-f", "--file")
        build.add_argument("-t", "--tag")
        build.add_argument("folder")
        run = commands.add_parser("run", allow_abbrev=False)
        run.add_argument("-d", "--detach", action="store_true")
        run.add_argument("--name")
        run.add_argument("--cap-drop", choices=("all",))
        run.add_argument("--security-opt", choices=("no-new-privileges",))
        run.add_argument("-p", "--publish", action="append")
        run.add_argument("-v", "--volume", action="append")
        run.add_argument("image")
        run.add_argument("words", nargs=argparse.REMAINDER)
        within = commands.add_parser("exec", allow_abbrev=False)
        within.add_argument("name")
        within.add_argument("words", nargs=argparse.REMAINDER)
        check = commands.add_parser("healthcheck", allow_abbrev=False)
        check.add_argument("run", choices=("run",))
        for named in (check, commands.add_parser("stop"), commands.add_parser("start")):
            named.add_argument("name")
        return whole

    def test_health(self):
        """The front runs by the container's words and from its files alone, twice; its health check passes where the front and its
        MME answer, and where one of them doesn't it fails, or is ended after its time."""
        root = self.laid()
        (root / "etc/soizkadur").mkdir(parents=True)
        (root / "etc/soizkadur/subscribers").write_text(HEAD)
        words = self.within(root, self.words("ENTRYPOINT") + self.words("CMD")) + ["--tcp", "--port", "0"]
        alone = {"env": {"PATH": os.environ["PATH"]}, "cwd": "/", "stderr": subprocess.DEVNULL}

        def is_healthy(seconds=30):
            with contextlib.suppress(subprocess.TimeoutExpired):
                check = self.within(root, self.words("HEALTHCHECK"))
                done = subprocess.run(check, stdout=subprocess.PIPE, timeout=seconds, check=False, **alone)
                self.assertNotIn(IMSI.encode(), done.stdout)
                return done.returncode == 0
            return False

        def is_healthy_without(process):
            """Whether the check passes while a process stands still."""
            os.kill(process, signal.SIGSTOP)
            found = is_healthy(2)
            os.kill(process, signal.SIGCONT)
            return found

        self.assertFalse(is_healthy())
        for is_first in (True, False):
            with subprocess.Popen(words, **alone) as running:
                try:
                    end = time.monotonic() + 60
                    while not is_healthy():
                        self.assertLess(time.monotonic(), end)
                    children = pathlib.Path("/proc/%d/task/%d/children" % (running.pid, running.pid)).read_text().split()
                    for process in (running.pid, *map(int, children)) if is_first else ():
                        self.assertFalse(is_healthy_without(process))
                    self.assertTrue(is_healthy())
                finally:
                    running.terminate()
            self.assertEqual((running.returncode, is_healthy()), (0, False))
        self.assertEqual({path.name for path in (root / "var/lib/soizkadur").iterdir()}, LOG_FILES)
