"""What the built program answers to a trace: the messages between the lines of states, as docs/TABLE.md names them."""
import collections
import subprocess

from tests.docs import tables
from tools import s1ap

PROGRAM = tables.TOP / "crates" / "mme" / "out" / "mme"
ATTACH_REJECT = 0x44

Sent = collections.namedtuple("Sent", "owner text mme_id enb_id station nas listed")
Group = collections.namedtuple("Group", "sent refused states")


class Failure(Exception):
    """What is not as a row says."""


def must(holds, text, *words):
    if not holds:
        raise Failure(text % words)


def nas_text(octets):
    """A NAS message by its name, what it carries of a reject, and its security header."""
    message = s1ap.nas(octets)
    text = message.name
    if message.type == ATTACH_REJECT and message.octets[3:4] == b"\x78":
        text += " with " + s1ap.nas(message.octets[6:]).name
    return text + (" (%d)" % message.header if message.header else "")


def read_sent(owner, station, octets):
    """A message as the table names it, and whose it is."""
    message = s1ap.read(octets)
    nas, cause, name = s1ap.carried(message), s1ap.cause(message), s1ap.name(message)
    text = {"UE CONTEXT RELEASE COMMAND": "RELEASE", "ERROR INDICATION": "ERROR"}.get(name, name)
    if name == "DOWNLINK NAS TRANSPORT":
        text = nas_text(nas)
    elif nas is not None:
        text += " with " + nas_text(nas)
    elif cause:
        text += " " + cause
    listed = s1ap.listed(message)
    return Sent(owner, text + " with the list" * (listed is not None), *s1ap.ids(message), station, nas, listed)


def groups_of(output):
    """What was sent and refused up to each line of states, and these."""
    groups, sent, refused = [], [], []
    for line in output.splitlines():
        word, *fields = line.split(" ")
        if word == "out":
            sent.append(read_sent(fields[0], int(fields[1]), bytes.fromhex(fields[2])))
        elif word == "refused":
            refused.append(line)
        else:
            groups.append(Group(sent, refused, " ".join(fields[1:])))
            sent, refused = [], []
    return groups


def texts(sent):
    """Messages as the table has them."""
    return "; ".join(message.text for message in sent)


def play(trace):
    """What the built program prints for a trace."""
    done = subprocess.run([PROGRAM, "play"], input=trace.text().encode(), stdout=subprocess.PIPE, stderr=subprocess.PIPE,
                          timeout=60, check=False)
    if done.returncode:
        raise Failure("the program ends with status %d: %s" % (done.returncode, done.stderr.decode().strip()[:100]))
    return done.stdout.decode()


def judge_steps(output, judges):
    """Each group is judged by its step."""
    groups = groups_of(output)
    must(len(groups) == len(judges), "%d steps of %d", len(groups), len(judges))
    for judge, group in zip(judges, groups):
        judge(group)
