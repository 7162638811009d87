#!/usr/bin/env python3
"""Tests the package python/soizkadur over the shared object that SOIZKADUR_LIBRARY names. Closes with 'N passed, M failed'.

Rows, calls and messages are those of tests/rows and tests/parts, keys also what Python's hmac derives, and what the MME owes to
phones that fail is docs/TABLE.md: none of it is the library's own output.
"""
import contextlib
import copy
import functools
import pathlib
import pickle
import random
import re
import runpy
import sys
import textwrap
import threading
import traceback

sys.dont_write_bytecode = True

TOP = pathlib.Path(__file__).resolve().parent.parent.parent
ROWS, PARTS = TOP / "tests" / "rows", TOP / "tests" / "parts"
if __name__ == "__main__":
    sys.path[:1] = [str(TOP), str(TOP / "python")]
import soizkadur
from soizkadur import Direction, EcmState, EmmMessage, EmmState, EsmState, Mme, Owner, Refusal, Refused, S1apKind, States
from soizkadur.standards import FailingPhone, OutOfPlace, Sim, Vector, carried_nas, lte, phones
from soizkadur.testing import Laboratory, Unexpected, laboratory

rows_of = runpy.run_path(str(PARTS / "run"))["rows_of"]

TESTS = []
IMSI = "001010000000001"
# The message types of EMM messages (TS 24.301 clause 9.8), and SERVICE REQUEST by its first octet.
TYPES = {"ATTACH REQUEST": 0x41, "ATTACH ACCEPT": 0x42, "ATTACH COMPLETE": 0x43, "ATTACH REJECT": 0x44, "DETACH REQUEST": 0x45,
         "DETACH ACCEPT": 0x46, "TRACKING AREA UPDATE REQUEST": 0x48, "TRACKING AREA UPDATE ACCEPT": 0x49,
         "TRACKING AREA UPDATE COMPLETE": 0x4A, "TRACKING AREA UPDATE REJECT": 0x4B, "SERVICE REJECT": 0x4E,
         "AUTHENTICATION REQUEST": 0x52, "AUTHENTICATION RESPONSE": 0x53, "AUTHENTICATION REJECT": 0x54, "IDENTITY REQUEST": 0x55,
         "IDENTITY RESPONSE": 0x56, "AUTHENTICATION FAILURE": 0x5C, "SECURITY MODE COMMAND": 0x5D, "SECURITY MODE COMPLETE": 0x5E,
         "SECURITY MODE REJECT": 0x5F, "EMM STATUS": 0x60, "SERVICE REQUEST": 0xC7}
S1AP_FAULTS = {"Syntax": Refusal.S1AP_SYNTAX, "UnknownProcedure": Refusal.S1AP_UNKNOWN_PROCEDURE,
               "MissingElement": Refusal.S1AP_MISSING_ELEMENT, "RepeatedElement": Refusal.S1AP_REPEATED_ELEMENT,
               "RefusedElement": Refusal.S1AP_REFUSED_ELEMENT}
NAS_FAULTS = {"TooShort": Refusal.NAS_TOO_SHORT, "Mandatory": Refusal.NAS_MANDATORY, "UnknownType": Refusal.NAS_UNKNOWN_TYPE,
              "OptionalPart": Refusal.NAS_OPTIONAL_PART}
DIRECTIONS = {"up": Direction.UPLINK, "down": Direction.DOWNLINK}


def test(function):
    TESTS.append((function.__name__, function))
    return function


def test_of_each(cases):
    """A test for each case, a name and what the function is told."""
    def keep(function):
        TESTS.extend(("%s %s" % (function.__name__, name), lambda told=told: function(told)) for name, told in cases)
        return function
    return keep


def octets(text):
    return b"" if text == "-" else bytes.fromhex(text)


def answer(call, *given):
    """What a call answers, or why it is refused."""
    try:
        return call(*given)
    except Refused as refused:
        return refused.refusal


def must_be(got, wanted):
    assert got == wanted, "%r, and should be %r" % (got, wanted)


@contextlib.contextmanager
def fails(kind):
    """What is in it raises this."""
    try:
        yield
    except kind:
        return
    raise AssertionError("no %s" % kind.__name__)


# --- Rows ---


@test_of_each([(path.stem, path) for path in sorted(ROWS.glob("*.trace"))])
def row(path):
    """A row's answers, and where a line of it is wrong its fault."""
    lines, told, fault = path.read_bytes().split(b"\n"), [], ""
    with Mme() as mme:
        for number, line in enumerate(lines[:-1] if lines[-1] == b"" else lines, 1):
            try:
                told += mme.answers(line)
            except Refused as refused:
                fault = "mme: line %d: fault %d\n" % (number, refused.refusal - 10)
                break
    errors = path.with_suffix(".errors")
    must_be(fault, errors.read_text() if errors.exists() else "")
    must_be("".join(line + "\n" for line in told), path.with_suffix(".answers").read_text())


@test_of_each([("%s in turns of %d lines" % (path.stem, most), (path, most)) for path in sorted(ROWS.glob("*.trace"))
               for most in (1, 40)])
def row_in_turns(told):
    """A row's answers, and the fault of a line, by `play_text` of so many lines at most."""
    path, most = told
    lines, answers, fault, at = path.read_bytes().splitlines(keepends=True), b"", "", 0
    turns = random.Random(path.stem)
    if lines and not lines[-1].endswith(b"\n"):
        lines[-1] += b"\n"
    with Mme() as mme:
        while at < len(lines) and not fault:
            turn = lines[at:at + turns.randint(1, most)]
            try:
                answers += mme.play_text(b"".join(turn) + b"tick")
            except Refused as refused:
                answers += refused.answers
                fault = "mme: line %d: fault %d\n" % (at + refused.line, refused.refusal - 10)
            at += len(turn)
    errors = path.with_suffix(".errors")
    must_be(fault, errors.read_text() if errors.exists() else "")
    must_be(answers.decode(), path.with_suffix(".answers").read_text())


HEAD = [line for line in (ROWS / "attach_whole.trace").read_text().splitlines() if line.split(" ")[0] in ("mme", "sub", "vec")]
VECTOR = [octets(word) for word in HEAD[2].split(" ")[2:]]
EVENTS = [line.split(" ") for line in (ROWS / "attach_whole.trace").read_text().splitlines() if line.startswith(("up ", "in "))]
ANSWERS = (ROWS / "attach_whole.answers").read_text().splitlines()
OWED = [line for line in ANSWERS if line.startswith("out ")]


def by_calls():
    """The row's head by calls."""
    mme = begun()
    mme.add(IMSI, 0x0A000001, 0x0A000064, 1)
    mme.give(IMSI, *VECTOR)
    mme.start()
    mme.start()
    return mme


def while_it_runs():
    """The row's head by calls, of which all but the first come while the MME runs."""
    mme = begun()
    mme.start()
    mme.add_live(IMSI, 0x0A000001, 0x0A000064, 1)
    mme.give_live(IMSI, *VECTOR)
    return mme


def begun():
    """An Mme with nobody provisioned, before it is started."""
    mme = Mme()
    mme.provision(bytes.fromhex("00f110"), 0x8001, 0x01, "internet", 10**9, 10**9)
    return mme


@test_of_each([("text", lambda: Mme.from_lines("\n".join(HEAD))), ("octets", lambda: Mme.from_lines("\n".join(HEAD).encode())),
               ("lines", lambda: Mme.from_lines(HEAD)), ("one by one", by_calls), ("while it runs", while_it_runs)])
def events_by_calls(made):
    """The row of a whole attach, by the calls of an Mme, of provisioning in each of its forms."""
    with made() as mme:
        told = []
        for word, station, *more in EVENTS:
            told += mme.up(int(station)) if word == "up" else mme.receive(int(station), octets(more[0]))
        must_be(list(map(str, told)), OWED)
        must_be([(out.owner, out.number, out.station) for out in told[:2]], [(Owner.STATION, 0, 0), (Owner.SUBSCRIBER, 0, 0)])
        must_be(mme.states(IMSI), States(EmmState.REGISTERED, EcmState.IDLE, EsmState.ACTIVE))
        must_be(str(mme.states(IMSI)), ANSWERS[-1].split(" ", 2)[2])
        must_be(mme.slot(IMSI), 0)


@test
def ticks_have_a_reply_each():
    """A challenge comes again at the sixth tick."""
    with Mme.from_lines(HEAD) as mme:
        mme.up(0)
        for event in EVENTS[1:3]:
            mme.receive(0, octets(event[2]))
        replies = mme.tick(6)
        must_be([[str(out) for out in reply] for reply in replies], [[]] * 5 + [OWED[1:2]])
        must_be(mme.replies(), replies)
        must_be([str(out) for out in mme.line("tick 6")], OWED[1:2])


@test
def answers_that_have_no_room():
    """Where one call of the library has room for few answers, the text's answers are the same."""
    whole, mme_module = (ROWS / "attach_given_up.trace").read_bytes(), sys.modules["soizkadur.mme"]
    ticks = whole.count(b"\ntick ")
    assert ticks > 1, "the row has ticks"
    lines = [line for line in whole.splitlines(keepends=True) if not line.startswith(b"show ")]
    for text in (whole, b"".join(lines) + b"tick 70\n"):
        with Mme() as mme:
            wanted = mme.play_text(text)
        for room in (100, 300, 1000):
            usual, mme_module.TEXT_OCTETS = mme_module.TEXT_OCTETS, room
            try:
                with Mme() as mme:
                    must_be(mme.play_text(text), wanted)
            finally:
                mme_module.TEXT_OCTETS = usual


# --- Refusals ---


@test_of_each([(word + str(given), (word, given, wanted)) for word, given, wanted in (
    ("up", (0,), Refusal.ALREADY_UP), ("up", (128,), Refusal.BAD_NUMBER), ("up", (256,), Refusal.BAD_NUMBER),
    ("up", (-1,), Refusal.BAD_NUMBER), ("lost", (1,), Refusal.NOT_UP), ("receive", (1, b""), Refusal.NOT_UP),
    ("in_", (300, b""), Refusal.BAD_NUMBER), ("tick", (0,), Refusal.BAD_NUMBER), ("tick", (2**32,), Refusal.BAD_NUMBER),
    ("data", ("001010000000009",), Refusal.UNKNOWN_IMSI), ("cancel", ("00101000000000x",), Refusal.BAD_NUMBER),
    ("cancel", ("٠٠١٠١٠٠٠٠٠٠٠٠٠١",), Refusal.BAD_NUMBER), ("states", ("001010000000009",), Refusal.UNKNOWN_IMSI),
    ("slot", ("1",), Refusal.BAD_NUMBER), ("line", ("show 001010000000009",), Refusal.PROVISION),
    ("line", ("in 0 0",), Refusal.BAD_OCTETS), ("add", (IMSI, 1, 2, 3), Refusal.ORDER),
    ("add", (IMSI, 2**32, 2, 3), Refusal.BAD_NUMBER),
    ("give", (IMSI, b"", b"", b"", b""), Refusal.BAD_OCTETS),
    ("restored", (b"",), Refusal.NO_SNAPSHOT),
    ("add_live", ("1", 2, 3, 4), Refusal.BAD_NUMBER), ("add_live", (IMSI, 2**32, 3, 4), Refusal.BAD_NUMBER),
    ("add_live", (IMSI, 2, 3, 4), Refusal.PROVISION), ("add_live", ("001010000000002", 0x0A000001, 3, 4), Refusal.PROVISION),
    ("give_live", ("1", bytes(15), bytes(16), bytes(8), bytes(32)), Refusal.BAD_NUMBER),
    ("give_live", ("001010000000009", bytes(16), bytes(16), bytes(17), bytes(32)), Refusal.BAD_OCTETS),
    ("give_live", ("001010000000009", bytes(16), bytes(16), bytes(8), bytes(32)), Refusal.UNKNOWN_IMSI),
    ("provision", (b"", 1, 1, "a", 1, 1), Refusal.BAD_OCTETS), ("provision", (bytes(3), 2**16, 1, "a", 1, 1), Refusal.BAD_NUMBER))])
def refused(told):
    """A call that is refused says why, and the MME and its last replies are as they were."""
    word, given, wanted = told
    with Mme.from_lines(HEAD) as mme:
        mme.up(0)
        mme.receive(0, octets(EVENTS[1][2]))
        before = mme.replies(), mme.states(IMSI)
        must_be(answer(getattr(mme, word), *given), wanted)
        must_be((mme.replies(), mme.states(IMSI)), before)


@test
def what_is_given_before_the_mme_runs():
    """The calls for an MME that runs are refused before it does, and those for one that doesn't afterwards."""
    with Mme() as mme:
        must_be(answer(mme.add_live, IMSI, 1, 2, 3), Refusal.NO_MME)
    with begun() as mme:
        must_be(answer(mme.add_live, IMSI, 1, 2, 3), Refusal.NO_MME)
        must_be(answer(mme.give_live, IMSI, *VECTOR), Refusal.NO_MME)
        must_be(answer(mme.give_live, IMSI, b"", *VECTOR[1:]), Refusal.BAD_OCTETS)
        mme.start()
        must_be((answer(mme.add, IMSI, 1, 2, 3), answer(mme.give, IMSI, *VECTOR)), (Refusal.ORDER, Refusal.ORDER))
        mme.add_live(IMSI, 1, 2, 3)
        for _ in range(64):
            mme.give_live(IMSI, *VECTOR)
        must_be(answer(mme.give_live, IMSI, *VECTOR), Refusal.PROVISION)


# --- Snapshots ---


@test
def saved_and_restored():
    """The row of a whole attach, by an Mme that is saved and restored after each event."""
    mme, told = Mme.from_lines(HEAD), []
    for word, station, *more in EVENTS:
        told += mme.up(int(station)) if word == "up" else mme.receive(int(station), octets(more[0]))
        before, parts, snapshot = mme.replies(), list(mme.parts()), mme.save()
        must_be((mme.replies(), b"".join(parts), len(parts)), (before, snapshot, 3))
        mme.close()
        mme = Mme.restored(snapshot)
        must_be((mme.replies(), mme.save()), ([], snapshot))
    must_be(list(map(str, told)), OWED)
    must_be(mme.states(IMSI), States(EmmState.REGISTERED, EcmState.IDLE, EsmState.ACTIVE))
    mme.close()


@test
def saved_while_phones_attach():
    """Phones of a laboratory whose Mme another takes the place of, again and again."""
    with Laboratory(phones=3) as phones_of:
        for phone in phones_of.phones:
            phone.asks_to_attach(phones_of.station, phone.slot + 1)
            restarted(phones_of)
            phone.authenticates()
            restarted(phones_of)
            phone.completes_security()
            phone.context_is_set_up()
            restarted(phones_of)
            phone.completes_attach()
            must_be(phones_of.states(phone).emm, EmmState.REGISTERED)


def restarted(room):
    """The Mme of a laboratory is one that is restored from its snapshot."""
    before = room.mme
    after = Mme.restored(before.save())
    before.close()
    before._handle, after._handle = after._handle, before._handle


@test
def snapshots_that_are_refused():
    """Each refusal of octets, with its place and in words."""
    with Mme.from_lines([*HEAD, "sub 001010000000002 0a000002 0a000064 00000002"]) as mme:
        mme.up(0)
        parts = list(mme.parts())
    first, count, one, other = parts
    version = first[0] + 1
    cases = [(bytes([version]) + b"".join(parts)[1:], Refusal.OTHER_VERSION, version, "version %d: " % version),
             (b"", Refusal.NO_SNAPSHOT, 2**64 - 1, ""), (b"".join(parts) + b"\0", Refusal.NO_SNAPSHOT, 2**64 - 1, ""),
             (first.replace(b"internet", b".nternet") + count + one + other, Refusal.NO_SNAPSHOT, 0, "what stands first: "),
             (first + count + one + one, Refusal.NO_SNAPSHOT, 2**34 + 1, "slot 1: ")]
    for snapshot, refusal, place, words in cases:
        try:
            Mme.restored(snapshot)
        except Refused as refused:
            must_be((refused.refusal, refused.place), (refusal, place))
            must_be(str(refused), "%s%s (%s)" % (words, refusal.words, refusal.name))
        else:
            raise AssertionError("it isn't refused")
    must_be(answer(Mme.restored, b"", 2**64), Refusal.BAD_NUMBER)
    with begun() as mme:
        must_be(answer(mme.save), Refusal.NO_MME)


@test
def a_line_that_is_refused_is_named():
    with fails(Refused):
        Mme.from_lines(HEAD + ["sub 1"])
    try:
        Mme.from_lines(HEAD + ["sub 1"])
    except Refused as refused:
        must_be((refused.refusal, refused.line), (Refusal.FIELD_COUNT, 4))
        assert str(refused).startswith("line 4: "), str(refused)


@test
def each_refusal_has_words_and_its_number():
    """The numbers and names are those of soizkadur.h."""
    header = (TOP / "library" / "soizkadur.h").read_text()
    found = re.compile(r"^    SOIZKADUR_(\w+) = (\d+)", re.M)
    listed = {name: int(number) for name, number in found.findall(header)}
    for kind in (Refusal, S1apKind, Owner, EmmState, EcmState, EsmState, Direction):
        for each in kind:
            must_be(listed[each.name], each.value)
    refusals = header[header.index("enum soizkadur_refusal {"):header.index("};")]
    must_be({name for name, _ in found.findall(refusals)}, {"OK", *Refusal.__members__})
    assert all(each.words for each in Refusal)


@test
def a_closed_mme_is_as_a_new_one():
    mme = Mme.from_lines(HEAD)
    mme.close()
    mme.close()
    must_be(answer(mme.up, 0), Refusal.NO_MME)
    must_be(mme.replies(), [])
    must_be(mme.answers(HEAD[0]), [])
    mme.close()


@test
def an_mme_is_not_copied():
    with Mme.from_lines(HEAD) as mme:
        for way in (copy.copy, copy.deepcopy, pickle.dumps):
            with fails(TypeError):
                way(mme)


@test
def an_mme_stays_on_its_thread():
    caught = []

    def use(mme):
        try:
            mme.up(0)
        except RuntimeError as fault:
            caught.append(str(fault))

    with Mme.from_lines(HEAD) as mme:
        thread = threading.Thread(target=use, args=(mme,))
        thread.start()
        thread.join()
        must_be(len(caught), 1)
        must_be(mme.up(0), [])


# --- Messages and keys ---


def parts(file, *words):
    """The rows of a file of tests/parts whose calls begin with one of these words: the call's fields, and the answer."""
    for place, call, _, wanted in rows_of(PARTS / (file + ".rows")):
        fields = call.split(" ")
        if fields[0] in words:
            yield "%s:%d" % (file, place), (fields, wanted)


def s1ap_wanted(wanted):
    """The fault, or the kind and the ids, that a row's answer has."""
    fault = re.match(r"fault (\w+)", wanted)
    if fault:
        return S1AP_FAULTS[fault[1]]
    name, m, b = re.match(r"(\w+)(?: mme (\d+))?(?: enb (\d+))?", wanted).groups()
    kind = next(kind for kind in S1apKind if kind.name.replace("_", "").lower() == name.lower())
    return kind, m and int(m), b and int(b)


@test_of_each([(name, told) for file in ("s1ap", "s1ap_noisy", "s1ap_resets", "s1ap_traces")
               for name, told in parts(file, "s1ap", "s1ap_again")
               if told[0][0] == "s1ap" or told[1].startswith("fault ")])
def s1ap(told):
    fields, wanted = told
    got = answer(soizkadur.s1ap, octets(fields[1]))
    must_be(got if isinstance(got, Refusal) else tuple(got), s1ap_wanted(wanted))


# The messages that the MME sends, by the first two octets: the outcome and the procedure (TS 36.413 clause 9.3).
SENT = {b"\x20\x11": S1apKind.S1_SETUP_RESPONSE, b"\x40\x11": S1apKind.S1_SETUP_FAILURE,
        b"\x00\x0b": S1apKind.DOWNLINK_NAS_TRANSPORT, b"\x00\x09": S1apKind.INITIAL_CONTEXT_SETUP_REQUEST,
        b"\x00\x17": S1apKind.UE_CONTEXT_RELEASE_COMMAND, b"\x00\x0a": S1apKind.PAGING,
        b"\x20\x03": S1apKind.PATH_SWITCH_REQUEST_ACKNOWLEDGE,
        b"\x40\x03": S1apKind.PATH_SWITCH_REQUEST_FAILURE, b"\x20\x0e": S1apKind.RESET_ACKNOWLEDGE,
        b"\x00\x0f": S1apKind.ERROR_INDICATION}


@test
def messages_of_rows_are_of_their_kinds():
    """Each message that a row is answered with is read, and is of its kind."""
    found = set()
    for path in sorted(ROWS.glob("*.answers")):
        for line in path.read_text().splitlines():
            if line.startswith("out "):
                sent = octets(line.split(" ")[3])
                must_be(soizkadur.s1ap(sent).kind, SENT[sent[:2]])
                found.add(sent[:2])
    must_be(found, set(SENT))


@test_of_each(parts("nas_messages", "emm"))
def nas(told):
    (_, direction, text), wanted = told
    fault = re.match(r"fault \d (\w+)", wanted)
    name = max((name for name in TYPES if wanted.startswith(name)), key=len, default=None)
    must_be(answer(soizkadur.nas, octets(text), DIRECTIONS[direction]), NAS_FAULTS[fault[1]] if fault else TYPES[name])


CRATES = TOP / "crates"


@test
def emm_messages_have_the_types_of_the_code():
    """The names and types of soizkadur.h and of the package are those of the standard's table, and of the crates' definitions."""
    told = {each.name: each.value for each in EmmMessage}
    must_be(told, {name.replace(" ", "_"): number for name, number in TYPES.items()})
    header = (TOP / "library" / "soizkadur.h").read_text()
    listed = re.findall(r"^    SOIZKADUR_EMM_(\w+) = 0x([0-9a-f]{2})", header, re.M)
    must_be({name: int(number, 16) for name, number in listed}, told)
    defined = (CRATES / "nas_messages" / "specs" / "Messages.antt").read_text()
    codes = {re.sub(r"(?<!^)(?=[A-Z])", "_", name).upper(): int(number, 16)
             for name, number in re.findall(r"^code_of (\w+) = 0x([0-9a-f]{2})$", defined, re.M)}
    must_be(codes.pop("NETWORK_DETACH"), told["DETACH_REQUEST"])
    must_be(codes, {name: number for name, number in told.items() if name != "SERVICE_REQUEST"})
    elements = (CRATES / "nas_elements" / "src" / "codes.rt").read_text()
    named = dict(re.findall(r"^pub const (\w+): u8 = 0x([0-9a-f]{2});", elements, re.M))
    must_be({name: int(number, 16) for name, number in named.items()}, {name: told[name] for name in named})
    assert "SERVICE_REQUEST" in named, named


@test
def a_nas_message_is_taken_out_of_each_s1ap_message():
    """What was put into a message comes out, also where a length takes two octets, and from the others nothing."""
    network, station = phones.Network(), phones.Station(0)
    phone = FailingPhone(phones.Trace(network), 0, [])
    for given in (b"\x07\x46", bytes(range(127)), bytes(128), bytes(300)):
        for made in (lte.initial_ue_message(network, station, 1, given), lte.initial_ue_message(network, station, 1, given, 7),
                     lte.uplink_nas(network, station, 2**32 - 1, 2**24 - 1, given), lte.downlink_nas(1, 1, given),
                     lte.context_setup_request(network, 1, 1, phone, bytes(32), given)):
            must_be(carried_nas(made), given)
    for made in (lte.context_setup_request(network, 1, 1, phone, bytes(32)), lte.paging(network, IMSI, 1, 1),
                 lte.s1_setup_request(network, station), lte.reset(), b"", b"\x00\x0b"):
        must_be(carried_nas(made), None)


@test
def the_nas_messages_of_a_row():
    """Those that a phone is sent as it attaches (TS 24.301 clause 5.5.1.2), out of the row's answers."""
    carried = [carried_nas(octets(line.split(" ")[3])) for line in OWED]
    found = []
    for each in filter(None, carried):
        plain = each if each[0] >> 4 == 0 else soizkadur.nas_protected(each).plain
        found.append(soizkadur.nas(plain, Direction.DOWNLINK))
    must_be(found, [EmmMessage.AUTHENTICATION_REQUEST, EmmMessage.SECURITY_MODE_COMMAND, EmmMessage.ATTACH_ACCEPT])


@test
def how_the_documents_read_an_answer():
    """The lines of docs/LIBRARY.md under "Messages and keys", over the row's INITIAL CONTEXT SETUP REQUEST."""
    text = (TOP / "docs" / "LIBRARY.md").read_text()
    lines = re.search(r"\n`soizkadur_nas` answers with .*\n\n((?:    .*\n|\n)+)", text)[1]
    out = soizkadur.Out(Owner.SUBSCRIBER, 0, 0, octets(OWED[3].split(" ")[3]))
    exec(textwrap.dedent(lines), {"out": out, "soizkadur": soizkadur})


@test_of_each(parts("nas_messages", "protected"))
def nas_protected(told):
    (_, text), wanted = told
    found = re.match(r"header (\d) MAC (\w+) sequence (\d+) message (\w+|-)", wanted)
    got = answer(soizkadur.nas_protected, octets(text))
    if found:
        must_be(got, (int(found[1]), octets(found[2]), int(found[3]), octets(found[4])))
    else:
        must_be(got, Refusal.NAS_NOT_PROTECTED)


@test_of_each(parts("keys", "eia2", "kept_eia2", "kenb", "next_hop", "nas_integrity_key"))
def keys(told):
    (call, key, *more), wanted = told
    if call.endswith("eia2"):
        got = soizkadur.eia2(octets(key), int(more[0]), DIRECTIONS[more[1]], octets(more[2]))
    elif call == "kenb":
        got = soizkadur.kenb(octets(key), int(more[0]))
    elif call == "next_hop":
        got = soizkadur.next_hop(octets(key), octets(more[0]))
    else:
        got = soizkadur.nas_integrity_key(octets(key))
    must_be(got.hex(), wanted)


@test_of_each([(str(seed), seed) for seed in range(8)])
def keys_as_hmac_has_them(seed):
    """Python's hmac and the AES of reference/lte.py (FIPS 197, RFC 4493) come to the same."""
    rng = random.Random(seed)
    kasme, previous, count = rng.randbytes(32), rng.randbytes(32), rng.randrange(2**32)
    must_be(soizkadur.kenb(kasme, count), lte.kenb(kasme, count))
    must_be(soizkadur.next_hop(kasme, previous), lte.next_hop(kasme, previous))
    must_be(soizkadur.nas_integrity_key(kasme), lte.nas_integrity_key(kasme))
    message = rng.randbytes(rng.randrange(80))
    for direction in Direction:
        must_be(soizkadur.eia2(kasme[:16], count, direction, message), lte.eia2(lte.Cmac(kasme[:16]), count, direction, message))


@test_of_each([("key", (soizkadur.eia2, bytes(15), 0, 0, b"")), ("kenb", (soizkadur.kenb, bytes(31), 0)),
               ("next_hop", (soizkadur.next_hop, bytes(32), bytes(33))), ("integrity", (soizkadur.nas_integrity_key, b""))])
def keys_of_other_lengths(told):
    must_be(answer(*told), Refusal.BAD_OCTETS)


@test
def directions_and_counts_of_their_ranges():
    must_be(answer(soizkadur.eia2, bytes(16), 0, 2, b""), Refusal.BAD_NUMBER)
    must_be(answer(soizkadur.eia2, bytes(16), 2**32, 0, b""), Refusal.BAD_NUMBER)
    must_be(answer(soizkadur.nas, b"\x07\x46", 2), Refusal.BAD_NUMBER)


@test
def the_version_is_that_of_the_repository():
    must_be(soizkadur.version(), tuple(map(int, (TOP / "VERSION").read_text().split("."))))


# --- Phones ---

DEREGISTERED = States(EmmState.DEREGISTERED, EcmState.IDLE, EsmState.INACTIVE)
REGISTERED = States(EmmState.REGISTERED, EcmState.CONNECTED, EsmState.ACTIVE)


def challenged(phone, station):
    phone.asks_to_attach(station, 1)


def secured(phone, station):
    challenged(phone, station)
    phone.authenticates()


def accepted(phone, station):
    secured(phone, station)
    phone.completes_security()


def asked_for_information(phone, station):
    phone.asks_to_attach(station, 1, information=True)
    phone.authenticates()
    phone.completes_security()


# A name, how far the phone comes, what it does then, and its states at the end.
FAILURES = [
    ("wrong RES", challenged, lambda phone, _: phone.gives_wrong_res(), DEREGISTERED),
    ("cause 20", challenged, lambda phone, _: phone.refuses_the_network(), DEREGISTERED),
    ("cause 26", challenged, lambda phone, _: phone.refuses_the_network(26), DEREGISTERED),
    ("cause 21", challenged, lambda phone, _: phone.is_out_of_step(), None),
    ("cause 21 until no vector is left", challenged, lambda phone, _: [phone.is_out_of_step() for _ in range(4)], DEREGISTERED),
    ("IPv6", None, lambda phone, station: phone.asks_for_ipv6(station, 1), DEREGISTERED),
    ("no EIA2", None, lambda phone, station: phone.asks_without_eia2(station, 1), DEREGISTERED),
    ("an IMSI of nobody", None, lambda phone, station: phone.asks_as_nobody(station, 1, "001010000000999"), DEREGISTERED),
    ("an identity withheld", None, lambda phone, station: phone.withholds_identity(station, 1), DEREGISTERED),
    ("SECURITY MODE REJECT", secured, lambda phone, _: phone.rejects_security(), DEREGISTERED),
    ("no response", challenged, lambda phone, _: phone.holds_back_response(), DEREGISTERED),
    ("a response too late", challenged, lambda phone, _: (phone.holds_back_response(), phone.answers_too_late()), DEREGISTERED),
    ("no SECURITY MODE COMPLETE", secured, lambda phone, _: phone.holds_back_security(), DEREGISTERED),
    ("no ESM INFORMATION RESPONSE", asked_for_information, lambda phone, _: phone.holds_back_information(), DEREGISTERED),
    ("no ATTACH COMPLETE", accepted, lambda phone, _: phone.holds_back_completion(), DEREGISTERED),
    ("ATTACH REQUEST twice", challenged, lambda phone, station: phone.attaches(station, 1), REGISTERED),
    ("AUTHENTICATION RESPONSE twice", secured, lambda phone, _: phone.says_it_again(), None),
    ("SECURITY MODE COMPLETE twice", accepted, lambda phone, _: phone.says_it_again(), None),
    ("ATTACH COMPLETE twice", accepted, lambda phone, _: (phone.completes_attach(), phone.says_it_again()), REGISTERED),
    ("SECURITY MODE COMPLETE forged", secured, lambda phone, _: phone.forges(lte.SECURITY_MODE_COMPLETE, 4), None),
    ("ATTACH COMPLETE forged", accepted, lambda phone, _: (phone.forges(lte.ATTACH_COMPLETE), phone.completes_attach()),
     REGISTERED),
]


@test_of_each([(each[0], each) for each in FAILURES])
def failing_phone(told):
    """What is owed for each phone that fails comes, octet by octet, and another phone attaches beside it as if it weren't there."""
    _, begin, act, states = told
    with Laboratory(phones=2) as here:
        failing, other = here.phones
        other.attaches(here.station, 2)
        if begin:
            begin(failing, here.station)
        act(failing, here.station)
        if states:
            must_be(here.states(failing), states)
        must_be(here.states(other), REGISTERED)


# Steps that come first, the step that can't be taken then, and the step that the refusal names.
OUT_OF_PLACE = [
    ("authenticates", (), lambda phone, _: phone.authenticates(), "asks_to_attach"),
    ("a wrong RES", (), lambda phone, _: phone.gives_wrong_res(), "asks_to_attach"),
    ("completes_security", (challenged,), lambda phone, _: phone.completes_security(), "authenticates"),
    ("gives_information", (secured,), lambda phone, _: phone.gives_information(), "completes_security"),
    ("context_is_set_up", (), lambda phone, _: phone.context_is_set_up(), "asks_to_attach"),
    ("completes_attach", (challenged,), lambda phone, _: phone.completes_attach(), "authenticates"),
    ("is_released", (), lambda phone, _: phone.is_released(), "asks_for_service"),
    ("is_released twice", (accepted, lambda phone, _: phone.is_released()), lambda phone, _: phone.is_released(),
     "asks_for_service"),
    ("has_data_waiting", (), lambda phone, station: phone.has_data_waiting([station]), "attach"),
    ("asks_for_service", (), lambda phone, station: phone.asks_for_service(station, 1), "authenticates"),
    ("updates_from_idle", (challenged,), lambda phone, station: phone.updates_from_idle(station, 2), "authenticates"),
    ("switches_path", (secured,), lambda phone, station: phone.switches_path(station, 2), "completes_security"),
    ("detaches", (), lambda phone, _: phone.detaches(), "asks_to_attach"),
    ("says_it_again", (), lambda phone, _: phone.says_it_again(), "authenticates"),
    ("answers_too_late", (challenged,), lambda phone, _: phone.answers_too_late(), "holds_back_response"),
    ("forges", (challenged,), lambda phone, _: phone.forges(lte.ATTACH_COMPLETE), "authenticates"),
    ("asks_without_vector", (), lambda phone, station: phone.asks_without_vector(station, 1), "vectors"),
    ("a vector too few", (challenged,), challenged, "no vector left"),
]


@test_of_each([(each[0], each[1:]) for each in OUT_OF_PLACE])
def step_out_of_place(told):
    """A step that the phone can't take where it is says so, names what is missing, and nothing is sent."""
    first, step, expected = told
    station = phones.Station(0)
    phone = FailingPhone(phones.Trace(), 0, [phones.Vector.made("only")])
    for each in first:
        each(phone, station)
    before = list(phone.trace.lines)
    try:
        step(phone, station)
    except OutOfPlace as fault:
        assert expected in str(fault) and phone.imsi in str(fault), fault
    else:
        raise AssertionError("it is taken")
    must_be(phone.trace.lines, before)


@test
def data_for_a_phone_that_is_not_paged():
    """Nothing is owed for data for a phone that isn't registered, and its step is taken."""
    phone = FailingPhone(phones.Trace(), 0, [])
    phone.has_data_waiting([])
    must_be((phone.trace.lines, phone.trace.answers), (["data " + phone.imsi], []))


@test
def a_phone_that_attaches_200_times():
    """Vectors are given as it goes, now and then several; in between it is out of step, and at last it has none."""
    with Laboratory(phones=1, vectors=1) as here:
        phone, station = here.phones[0], here.station

        def is_given():
            vector = Vector.made("further %d" % len(phone.vectors))
            here.mme.give_live(phone.imsi, vector.rand, vector.autn, vector.xres, vector.kasme)
            phone.vectors.append(vector)

        for turn in range(200):
            if not phone.unused:
                is_given()
            challenged(phone, station)
            if turn % 7 == 0:
                is_given()
                phone.is_out_of_step()
            phone.authenticates()
            for _ in range(3 if turn % 50 == 0 else 0):
                is_given()
            for step in phone.completes_security, phone.context_is_set_up, phone.completes_attach, phone.is_released:
                step()
        while phone.unused:
            phone.attaches(station, 1)
            phone.is_released()
        must_be((here.states(phone).emm, len(phone.vectors) > 200), (EmmState.REGISTERED, True))
        phone.asks_without_vector(station, 1)
        must_be(here.states(phone), DEREGISTERED)


@test
def a_phone_that_joins():
    """A subscriber who comes while another attaches has the next slot, and attaches once there is a vector; until then it is a
    stranger."""
    with Laboratory(phones=1) as here:
        first = here.phones[0]
        other = FailingPhone(here.trace, 1, [Vector.made("other")])
        challenged(first, here.station)
        other.asks_as_nobody(here.station, 2, other.imsi)
        number = functools.partial(int.from_bytes, byteorder="big")
        here.mme.add_live(other.imsi, number(other.address), number(other.gateway), number(other.teid))
        must_be((here.mme.slot(other.imsi), here.mme.slot(first.imsi)), (1, 0))
        first.authenticates()
        vector = other.vectors[0]
        here.mme.give_live(other.imsi, vector.rand, vector.autn, vector.xres, vector.kasme)
        other.attaches(here.station, 2)
        first.completes_security()
        first.context_is_set_up()
        first.completes_attach()
        must_be((here.states(first), here.states(other)), (REGISTERED, REGISTERED))


@test
def how_the_documents_provision():
    """Under "Provision while it runs" in docs/LIBRARY.md, what is to be run runs."""
    text = (TOP / "docs" / "LIBRARY.md").read_text(encoding="utf-8")
    part = re.search(r"\n## Provision while it runs\n(.*?)\n## ", text, re.S)[1]
    blocks = [block for block in re.findall(r"(?:    .*\n|\n(?=    ))+", part) if "with Laboratory" in block]
    must_be(len(blocks), 1)
    names = {}
    exec(textwrap.dedent(blocks[0]), names)
    must_be(len(names["phone"].vectors), 100)


@test
def how_the_documents_save():
    """Under "Save and restore" in docs/LIBRARY.md, what is to be run runs."""
    text = (TOP / "docs" / "LIBRARY.md").read_text(encoding="utf-8")
    part = re.search(r"\n## Save and restore\n(.*?)\n## ", text, re.S)[1]
    blocks = [block for block in re.findall(r"(?:    .*\n|\n(?=    ))+", part) if "with Laboratory" in block]
    must_be(len(blocks), 1)
    exec(textwrap.dedent(blocks[0]), {})


@test
def an_attach_without_a_vector():
    with Laboratory(phones=1, vectors=1) as here:
        phone = here.phones[0]
        phone.attaches(here.station, 1)
        phone.is_released()
        phone.asks_without_vector(here.station, 2)
        must_be(here.states(phone), DEREGISTERED)


@test
def an_answer_that_is_not_owed_is_found():
    """A phone that would have the MME answer otherwise fails the test, with the names of what was owed and of what came, and the
    chart of the run."""
    for act, owed, came in (
            (lambda phone: phone.sends(lte.authentication_response(phone.vector.xres)), "nothing", "[SECURITY MODE COMMAND]: out s0"),
            (lambda phone: phone.owed_nas(b"\x07\x54"), "[AUTHENTICATION REJECT]: out s0", "[AUTHENTICATION REQUEST]: out s0")):
        try:
            with Laboratory(phones=1) as here:
                challenged(here.phones[0], here.station)
                act(here.phones[0])
        except Unexpected as unexpected:
            _, wanted, got = re.split("\nthe MME owes\n|\nand answers\n", str(unexpected))
            assert owed in wanted and came in got and "-- ATTACH REQUEST --" in got, unexpected
        else:
            raise AssertionError("it isn't found")


@test
def what_the_documents_say_of_phones():
    """Under "Phones for tests" in docs/LIBRARY.md, each step is one of a phone, and what is to be run runs."""
    text = (TOP / "docs" / "LIBRARY.md").read_text(encoding="utf-8")
    part = re.search(r"\n### Phones for tests\n(.*?)\n## ", text, re.S)[1]
    steps = re.findall(r"`(\w+)\(", part)
    must_be([step for step in steps if not callable(getattr(FailingPhone, step, None))], [])
    runs = [block for block in re.findall(r"(?:    .*\n|\n(?=    ))+", part) if "with Laboratory" in block]
    must_be((len(steps) > 30, len(runs)), (True, 3))
    for block in runs:
        exec(textwrap.dedent(block), {"Laboratory": Laboratory})


@test
def a_laboratory_for_pytest():
    made = getattr(laboratory, "__wrapped__", laboratory)()
    here = next(made)
    must_be(len(here.phones), 10)
    with fails(StopIteration):
        next(made)


# --- A test SIM ---

# TS 35.207 clause 4.3, test set 1: K, OPc, RAND, f2.
K, OPC = octets("465b5ce8b199b49faa5f0a2ee238a6bc"), octets("cd63cb71954a9f4e48a5994e37a02baf")
RAND, F2 = octets("23553cbe9637a89d218ae64dae47bf35"), octets("a54211d5e3ba50bf")


@test
def a_sim_answers_as_the_standard_has_it():
    sim = Sim(K, OPC)
    vector = sim.vector(RAND)
    must_be(vector.xres, F2)
    must_be(sim.answer(RAND, vector.autn), (F2, None, None))
    must_be(sim.answer(RAND, bytes(16)).cause, 20)
    must_be(sim.answer(RAND, sim.vector(RAND, b"\0\0").autn).cause, 26)
    again = sim.answer(RAND, vector.autn)
    must_be(again.cause, 21)
    behind = Sim(K, OPC)
    behind.resynchronises(RAND, again.auts)
    must_be(behind.home, sim.sqn)


@test
def a_phone_with_a_sim_attaches():
    """The first vector is an old one: the phone says that it is out of step, and attaches by the next."""
    sim = Sim(K, OPC)
    made = [sim.vector(), sim.vector()]
    sim.sqn = sim.home - 1
    with Mme() as mme, soizkadur.standards.Live(mme) as live:
        phone, station = FailingPhone(live, 0, made), phones.Station(0)
        live.provision([phone])
        live.set_up(station)
        challenged(phone, station)
        phone.is_out_of_step(sim.answer(phone.vector.rand, phone.vector.autn).auts)
        must_be(sim.answer(phone.vector.rand, phone.vector.autn).res, phone.vector.xres)
        phone.authenticates()
        phone.completes_security()
        phone.context_is_set_up()
        phone.completes_attach()
        must_be(mme.states(phone.imsi), REGISTERED)


def main():
    passed = failed = 0
    for name, function in TESTS:
        try:
            function()
            passed += 1
        except Exception as fault:
            failed += 1
            where = traceback.extract_tb(fault.__traceback__)[-1]
            print("FAILED %s: %s:%d: %s: %s" % (name, pathlib.Path(where.filename).name, where.lineno, type(fault).__name__,
                                                str(fault)[:400]))
    print("%d passed, %d failed" % (passed, failed))
    return 0 if passed and not failed else 1


if __name__ == "__main__":
    sys.exit(main())
