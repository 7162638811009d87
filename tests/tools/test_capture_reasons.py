"""tools/capture out: what the comments of its packets say of reasons, as tshark shows them, and that no station is made up."""
import subprocess
import unittest

from tests.tools import dissection, failures, tools

CAPTURE = dissection.CAPTURE
RUNS, STORY = CAPTURE.runs, CAPTURE.story


def packets_of(octets, *fields):
    """These fields of each packet, as tshark has them."""
    words = [word for field in fields for word in ("-e", field)]
    done = subprocess.run(["tshark", "-r", "-", "-T", "fields", *words], input=octets, capture_output=True, timeout=60, check=True)
    return [line.split("\t") for line in done.stdout.decode().splitlines()]


def capture_of(trace, answers):
    read = RUNS.read_trace(trace.encode())
    run = STORY.exact_run(read, RUNS.read_answers(answers.encode()))
    writer = CAPTURE.write_steps(run.steps, read.imsis, run.told)
    return b"".join(CAPTURE.pcapng(writer, RUNS.end_of(run.steps)))


@unittest.skipIf(dissection.IS_MISSING, "no tshark")
class Comments(unittest.TestCase):
    def test_reasons(self):
        """The reason of a failure stands at the packet of its message, that of a timer at the release."""
        for name, packet, words in (
                ("used_count", -1,
                 "ATTACH COMPLETE is dropped (replayed): count 1 was accepted at line 11 (TS 24.301 clause 4.4.3.2)"),
                ("wrong_res", -3, "AUTHENTICATION RESPONSE fails: RES isn't XRES of vector 1 (TS 24.301 clause 5.4.2.5)"),
                ("t3460", -1, "the phone is given up: T3460 ended the fifth time without an answer, so the network gave up "
                              "(TS 24.301 clause 5.4.2.7)")):
            with self.subTest(failure=name):
                trace = next(failure for failure in failures.FAILURES if failure.name == name).make()
                packets = packets_of(capture_of(trace.text(), trace.answer_text()), "frame.comment")
                self.assertIn(words, packets[packet][0])

    def test_interface(self):
        done = tools.ran("capture", "out", tools.TOP / "examples" / "attach_whole.trace")
        self.assertEqual({name for name, in packets_of(done.stdout, "frame.interface_name")}, {"s1-mme"})

    def test_stations_that_are_not_there(self):
        """What comes from a station that isn't connected is a comment, and no packet, and the station has no name."""
        octets = capture_of("mme 001 01 8001 01 internet 1 1\nup 0\nin 7 00\nlost 9\nup 0\n", "refused 1\nrefused 1\nrefused 2\n")
        self.assertEqual({source for source, in packets_of(octets, "ip.src")}, {"198.51.100.1", "192.0.2.1"})
        self.assertNotIn(b"station-7", octets)
        comments = packets_of(octets, "frame.comment")[-1][0]
        for words in ("then: in 7 00", "refused 1: the station isn't connected", "then: lost 9", "then: up 0",
                      "station 7 isn't connected (TS 36.412 clause 7)"):
            self.assertIn(words, comments)
