"""Attaches that fail, each with the words that an engineer would want of it, written by hand.

What the MME answers comes from the standards' formats (reference/phones.py, reference/lte.py), and never from the MME.
"""
import collections

from reference import lte, phones

Failure = collections.namedtuple("Failure", "name shows make words")
FAILURES = []
NOBODYS_IMSI = "001010000000009"
FAILED = ((2, 2), 1)  # nas authentication-failure (TS 36.413 clause 9.2.1.3)
ALGORITHMS_WITHOUT_EIA2 = b"\xe0\x40"
STATUS = b"\x07\x60\x61"
OTHER_NETWORK = phones.Network("208", "93")


def failure(words):
    """The function makes the trace of a failure, whose explanation has these lines."""
    def keep(make):
        FAILURES.append(Failure(make.__name__, make.__doc__, make, words))
        return make
    return keep


def begun(vectors=2, **choices):
    """A station that is set up, and a phone."""
    trace = phones.Trace()
    phone = phones.Phone(trace, 0, [phones.Vector.made("failure %d" % at) for at in range(vectors)], **choices)
    trace.provision([phone])
    station = phones.Station(0)
    trace.set_up(station)
    return trace, phone, station


def rejects(phone, cause, inside=b""):
    """ATTACH REJECT is owed, plain, and the release."""
    phone.owed_nas(bytes([0x07, 0x44, cause]) + (b"\x78" + lte.long_sized(inside) if inside else b""))
    phone.owed(lte.release_command(phone.m, phone.b, lte.NORMAL_RELEASE))


def asks(phone, station, **choices):
    """ATTACH REQUEST that isn't challenged."""
    esm = lte.pdn_connectivity_request(1, choices.get("pdn_type", 1), False)
    phone.sends_first(station, 1, lte.attach_request(1, lte.imsi_identity(phone.imsi), phone.capability, esm))


def turned(octets, place=1):
    return octets[:place] + bytes([octets[place] ^ 1]) + octets[place + 1:]


def secured(**choices):
    """A phone to which SECURITY MODE COMMAND was sent."""
    trace, phone, station = begun(**choices)
    phone.asks_to_attach(station, 1, information=choices.get("information", False))
    phone.authenticates()
    return trace, phone, station


def registered():
    trace, phone, station = begun()
    phone.attaches(station, 1)
    return trace, phone, station


def fails_to_authenticate(cause):
    """AUTHENTICATION FAILURE with a cause; owed AUTHENTICATION REJECT and the release."""
    trace, phone, station = begun()
    phone.asks_to_attach(station, 1)
    phone.sends(bytes([0x07, 0x5C, cause]))
    phone.owed_nas(b"\x07\x54")
    phone.owed(lte.release_command(phone.m, phone.b, FAILED))
    return trace


@failure("""\
A stranger, eNB UE S1AP ID 1 at station 0
! line 7, 0 s: ATTACH REQUEST is refused: nobody is provisioned with IMSI 001010000000009 (TS 24.301 clause 5.5.1.2.5)
""")
def unknown_imsi():
    """The IMSI has no `sub` line."""
    trace, phone, station = begun()
    nas = lte.attach_request(1, lte.imsi_identity(NOBODYS_IMSI), phone.capability, lte.pdn_connectivity_request(1, 1, False))
    trace.hear(station, lte.initial_ue_message(trace.network, station, 1, nas))
    stranger = (1 << 31) + 1
    trace.owe("x0.1", station, lte.downlink_nas(stranger, 1, b"\x07\x44\x08"))
    trace.owe("x0.1", station, lte.release_command(stranger, 1, lte.NORMAL_RELEASE))
    return trace


@failure("""\
IMSI 001010000000001
! line 7, 0 s: ATTACH REQUEST is refused: the phone doesn't have 128-EIA2, the only integrity algorithm here \
(TS 33.401 clause 7.2.4)
  at the end: Deregistered (its attach was refused)
""")
def no_eia2():
    """The phone has EIA1 alone."""
    trace, phone, station = begun(capability=ALGORITHMS_WITHOUT_EIA2)
    asks(phone, station)
    rejects(phone, 111)
    return trace


@failure("""\
IMSI 001010000000001
! line 7, 0 s: ATTACH REQUEST is refused: the phone asks only for IPv6, and its subscription has IPv4 (TS 24.301 clause 6.5.1.4)
  at the end: Deregistered (its attach was refused)
""")
def ipv6_alone():
    """The phone asks for PDN type IPv6."""
    trace, phone, station = begun()
    asks(phone, station, pdn_type=2)
    rejects(phone, 19, b"\x02\x01\xd1\x32")
    return trace


@failure("""\
IMSI 001010000000001
! line 8, 0 s: AUTHENTICATION RESPONSE fails: RES isn't XRES of vector 1 (TS 24.301 clause 5.4.2.5)
  at the end: Deregistered (its authentication failed)
""")
def wrong_res():
    """RES has a bit turned."""
    trace, phone, station = begun()
    phone.asks_to_attach(station, 1)
    phone.sends(lte.authentication_response(turned(phone.vector.xres)))
    phone.owed_nas(b"\x07\x54")
    phone.owed(lte.release_command(phone.m, phone.b, FAILED))
    return trace


@failure("""\
IMSI 001010000000001
! line 8, 0 s: AUTHENTICATION RESPONSE fails: RES is XRES of vector 2, and the challenge is vector 1's (TS 24.301 clause 5.4.2.5)
  at the end: Deregistered (its authentication failed)
""")
def res_of_another_vector():
    """The phone answers another challenge."""
    trace, phone, station = begun()
    phone.asks_to_attach(station, 1)
    phone.sends(lte.authentication_response(phone.vectors[1].xres))
    phone.owed_nas(b"\x07\x54")
    phone.owed(lte.release_command(phone.m, phone.b, FAILED))
    return trace


@failure("""\
IMSI 001010000000001
! line 8, 0 s: AUTHENTICATION FAILURE #20 MAC failure fails: the phone found the MAC of vector 1's AUTN wrong: another K or OPc \
(TS 24.301 clause 5.4.2.7)
  at the end: Deregistered (its authentication failed)
""")
def cause_20():
    """The SIM has another K."""
    return fails_to_authenticate(20)


@failure("""\
IMSI 001010000000001
! line 8, 0 s: AUTHENTICATION FAILURE #26 Non-EPS authentication unacceptable fails: \
the AUTN of vector 1 lacks the separation bit, which a vector for LTE has (TS 24.301 clause 5.4.2.7)
  at the end: Deregistered (its authentication failed)
""")
def cause_26():
    """The vector is one for UMTS."""
    return fails_to_authenticate(26)


@failure("""\
IMSI 001010000000001
! line 8, 0 s: AUTHENTICATION FAILURE #21 Synch failure asks for another challenge: the SQN of vector 1 isn't above the phone's \
(TS 24.301 clause 5.4.2.7)
  at the end: Authenticating
""")
def cause_21():
    """The SIM has seen a later SQN: the next vector is tried."""
    trace, phone, station = begun()
    phone.asks_to_attach(station, 1)
    phone.sends(b"\x07\x5c\x15\x30\x0e" + bytes(14))
    phone.owed_nas(lte.authentication_request(1, phone.vectors[1]))
    return trace


@failure("""\
IMSI 001010000000001
! line 9, 0 s: SECURITY MODE COMPLETE is dropped (forged): the MAC is wrong under vector 1's key, for count 0 \
(TS 24.301 clause 4.4.4.3)
  at the end: SecurityMode
""")
def wrong_mac():
    """SECURITY MODE COMPLETE under another key."""
    trace, phone, _ = secured()
    phone.sends(turned(phone.secured(4, 0, lte.UP, lte.SECURITY_MODE_COMPLETE)))
    return trace


@failure("""\
IMSI 001010000000001
! line 14, 0 s: SECURITY MODE COMPLETE is dropped: the MAC is right under vector 1's key, and the context is vector 2's \
(TS 24.301 clause 4.4.4.3)
  at the end: SecurityMode
""")
def key_of_another_vector():
    """The phone attaches again and goes on with its old keys."""
    trace, phone, station = registered()
    old = phone.key
    phone.asks_to_attach(station, 1)
    phone.authenticates()
    phone.key = old
    phone.sends(phone.secured(4, 5, lte.UP, lte.SECURITY_MODE_COMPLETE))
    return trace


@failure("""\
IMSI 001010000000001
! line 12, 0 s: ATTACH COMPLETE is dropped (replayed): count 1 was accepted at line 11 (TS 24.301 clause 4.4.3.2; line 11)
  at the end: Registered connected
""")
def used_count():
    """ATTACH COMPLETE comes again."""
    trace, phone, _ = registered()
    trace.say(trace.lines[-1])
    return trace


@failure("""\
IMSI 001010000000001
! line 8, 0 s: AUTHENTICATION RESPONSE isn't the phone's: the pair isn't the connection's: MME id 1 is of station 0 with eNB id 1 \
(TS 36.413 clause 10.6; line 7)
  at the end: Authenticating
""")
def wrong_pair():
    """The station gives the phone another number."""
    trace, phone, station = begun()
    phone.asks_to_attach(station, 1)
    trace.hear(station, lte.uplink_nas(trace.network, station, phone.m, 9, lte.authentication_response(phone.vector.xres)))
    phone.owed(lte.error_indication(lte.UNKNOWN_PAIR, (phone.m, 9)))
    return trace


@failure("""\
IMSI 001010000000001
! line 13, 0 s: ATTACH REQUEST is refused: no vector is left: the phone was given 1, and each challenge takes one \
(TS 24.301 clause 5.4.2.2)
  at the end: Deregistered (its attach was refused)
""")
def no_vector_left():
    """A second attach with one vector."""
    trace, phone, station = begun(vectors=1)
    phone.attaches(station, 1)
    phone.is_released()
    asks(phone, station)
    rejects(phone, 17)
    return trace


@failure("""\
IMSI 001010000000001
! line 8, 30 s: the phone is given up: T3460 ended the fifth time without an answer, so the network gave up \
(TS 24.301 clause 5.4.2.7; line 7)
  at the end: Deregistered (T3460 ended too often)
""")
def t3460():
    """The phone doesn't answer the challenge."""
    trace, phone, station = begun()
    phone.asks_to_attach(station, 1)
    trace.say("tick 30")
    for _ in range(4):
        phone.owed_nas(lte.authentication_request(0, phone.vector))
    phone.owed(lte.release_command(phone.m, phone.b, lte.NAS_UNSPECIFIED))
    return trace


@failure("""\
IMSI 001010000000001
! line 10, 30 s: the phone is given up: T3450 ended the fifth time without an answer, so the network gave up \
(TS 24.301 clause 5.5.1.2.7; line 9)
  at the end: Deregistered (T3450 ended too often)
""")
def t3450():
    """The phone doesn't complete the attach."""
    trace, phone, station = secured()
    phone.completes_security()
    esm = lte.activate_default_bearer(trace.network, 1, phone.address, 1)
    trace.say("tick 30")
    for _ in range(4):
        phone.owed_nas(phone.protected_down(lte.attach_accept(trace.network, station.tac, phone.tmsi, 1, esm)))
    phone.owed(lte.release_command(phone.m, phone.b, lte.NAS_UNSPECIFIED))
    return trace


@failure("""\
IMSI 001010000000001
! line 10, 12 s: the phone is given up: T3489 ended the third time without an answer, so the network gave up \
(TS 24.301 clause 6.6.1.2.6; line 9)
  at the end: Deregistered (T3489 ended too often)
""")
def t3489():
    """The phone doesn't give the ESM information."""
    trace, phone, station = begun()
    phone.asks_to_attach(station, 1, information=True)
    phone.authenticates()
    phone.completes_security()
    trace.say("tick 12")
    for _ in range(2):
        phone.owed_nas(phone.protected_down(bytes([2, 1, lte.INFORMATION_REQUEST])))
    phone.owed(lte.release_command(phone.m, phone.b, lte.NAS_UNSPECIFIED))
    return trace


@failure("""\
Station 0
! line 6, 0 s: ATTACH REQUEST is refused: station 0 isn't set up (TS 36.413 clause 8.7.3.1)
""")
def station_not_set_up():
    """The station sends no S1 SETUP REQUEST."""
    trace = phones.Trace()
    phone, station = phones.Phone(trace, 0, [phones.Vector.made("one"), phones.Vector.made("two")]), phones.Station(0)
    trace.provision([phone])
    trace.say("up 0")
    esm = lte.pdn_connectivity_request(1, 1, False)
    nas = lte.attach_request(1, lte.imsi_identity(phone.imsi), phone.capability, esm)
    trace.hear(station, lte.initial_ue_message(trace.network, station, 1, nas))
    trace.owe("e0", station, lte.error_indication(lte.NOT_COMPATIBLE))
    return trace


@failure("""\
Station 0
! line 6, 0 s: S1 SETUP REQUEST is refused: the station broadcasts 208 93, and not the MME's network 001 01 \
(TS 36.413 clause 8.7.3.4)
""")
def another_plmn():
    """The station is of another network."""
    trace = phones.Trace()
    station = phones.Station(0)
    trace.provision([phones.Phone(trace, 0, [phones.Vector.made("one"), phones.Vector.made("two")])])
    trace.say("up 0")
    trace.hear(station, lte.s1_setup_request(OTHER_NETWORK, station))
    trace.owe("e0", station, lte.s1ap(lte.UNSUCCESSFUL, 17, lte.REJECT, (lte.IGNORE, lte.cause(((4, 3), 5)))))
    return trace


@failure("""\
IMSI 001010000000001
! line 8, 30 s: the phone is given up: T3460 ended the fifth time without an answer, so the network gave up \
(TS 24.301 clause 5.4.2.7; line 7)
! line 9, 30 s: AUTHENTICATION RESPONSE comes too late: MME id 1 was of a connection that ended at line 8: T3460 ended too often \
(TS 36.413 clause 10.6; line 8)
  at the end: Deregistered (T3460 ended too often)
""")
def answer_after_the_release():
    """The phone answers the challenge when the network has given up."""
    trace, station = t3460(), phones.Station(0)
    response = lte.authentication_response(phones.Vector.made("failure 0").xres)
    trace.hear(station, lte.uplink_nas(trace.network, station, 1, 1, response))
    trace.owe("s0", station, lte.error_indication(lte.UNKNOWN_MME_ID, (1, 1)))
    return trace


@failure("""\
IMSI 001010000000001
! line 12, 0 s: DETACH REQUEST is dropped: security header 4 isn't taken here: it belongs to SECURITY MODE COMPLETE \
(TS 24.301 clause 9.3.1)
  at the end: Registered connected
""")
def header_4():
    """A registered phone detaches under header 4."""
    trace, phone, _ = registered()
    nas = lte.detach_request(lte.guti(trace.network, phone.tmsi), phone.ksi, False)
    phone.sends(phone.secured(4, phone.up_count, lte.UP, nas))
    return trace


@failure("""\
IMSI 001010000000001
! line 10, 0 s: SECURITY MODE COMPLETE is dropped: security header 4 isn't taken here: the security mode is complete already, \
and later messages have header 1 or 2 (TS 24.301 clause 9.3.1)
  at the end: Accepting
""")
def completion_again():
    """SECURITY MODE COMPLETE twice, with the same octets."""
    trace, phone, _ = secured()
    again = phone.secured(4, phone.up_count, lte.UP, lte.SECURITY_MODE_COMPLETE)
    phone.completes_security()
    phone.sends(again)
    return trace


@failure("""\
IMSI 001010000000001
! line 9, 0 s: SECURITY MODE COMPLETE is dropped: the message isn't protected, and only a protected one is taken here \
(TS 24.301 clause 4.4.4.3)
  at the end: SecurityMode
""")
def plain_completion():
    """SECURITY MODE COMPLETE without its protection."""
    trace, phone, _ = secured()
    phone.sends(lte.SECURITY_MODE_COMPLETE)
    return trace


@failure("""\
IMSI 001010000000001
! line 9, 0 s: the phone loses its connection: station 0 was lost, which ended the phone's connection \
(TS 36.412 clause 7; line 7)
  at the end: Deregistered (its connection was lost)
""")
def station_lost():
    """The station is lost in the midst of the attach."""
    trace, _, _ = secured()
    trace.say("lost 0")
    return trace


@failure("""\
IMSI 001010000000001
! line 13, 0 s: EMM STATUS #97 Message type non-existent or not implemented is dropped: its count 2 is below 3, which was accepted \
at line 12 (TS 24.301 clause 4.4.3.2; line 12)
  at the end: Registered connected
""")
def passed_count():
    """Two messages in the wrong order: the second comes too late, and isn't a replay."""
    trace, phone, _ = registered()
    first, second = (phone.protected_up(STATUS) for _ in range(2))
    phone.sends(second)
    phone.sends(first)
    return trace


@failure("""\
A stranger, eNB UE S1AP ID 1 at station 0
! line 7, 0 s: ATTACH REQUEST is refused: the request can't be read: the mandatory part ends too early (TS 24.301 clause 7.5.1)
""")
def cut_request():
    """ATTACH REQUEST is cut after the phone's identity."""
    trace, phone, station = begun()
    trace.hear(station, lte.initial_ue_message(trace.network, station, 1, b"\x07\x41\x71" + lte.imsi_identity(phone.imsi)))
    trace.owe("x0.1", station, lte.downlink_nas((1 << 31) + 1, 1, b"\x07\x44\x60"))
    trace.owe("x0.1", station, lte.release_command((1 << 31) + 1, 1, lte.NORMAL_RELEASE))
    return trace


@failure("""\
IMSI 001010000000001
! line 12, 0 s: an unreadable NAS message is dropped: it is too short for the security header that it has (TS 24.301 clause 9.1)
  at the end: Registered connected
""")
def cut_in_its_protection():
    """A protected message of three octets."""
    trace, phone, _ = registered()
    phone.sends(b"\x27\0\1")
    return trace


@failure("""\
IMSI 001010000000001
! line 7, 0 s: TRACKING AREA UPDATE REQUEST is refused: the phone isn't registered: it is in Deregistered (it hasn't attached yet) \
(TS 24.301 clause 5.5.3.2.5)
  at the end: Deregistered (it hasn't attached yet)
""")
def update_before_attach():
    """The first that the phone does is an update, by a GUTI that would be its own."""
    trace, phone, station = begun()
    phone.sends_first(station, 1, lte.tau_request(0, 0, trace.network, lte.id_of_slot(0, 1)))
    phone.owed_nas(b"\x07\x4b\x0a")
    phone.owed(lte.release_command(phone.m, phone.b, lte.NORMAL_RELEASE))
    return trace


@failure("""\
IMSI 001010000000001
! line 15, 20 s: the phone is paged no more: T3413 ended the second time: the phone didn't answer the paging \
(TS 24.301 clause 5.6.2.2)
  at the end: Registered idle
""")
def paging_unanswered():
    """An idle phone doesn't answer the paging."""
    trace, phone, station = registered()
    phone.is_released()
    phone.has_data_waiting([station])
    trace.say("tick 30")
    phone.is_paged([station])
    return trace


@failure("""\
IMSI 001010000000001
! line 13, 0 s: the phone loses its connection: station 0 set up again, which ended the phone's connection \
(TS 36.413 clause 8.7.3.1; line 7)
  at the end: Registered idle

Nobody
! line 12, 0 s: the end of a subscription is refused: nobody is provisioned with IMSI 001010000000009 (README.md, A trace)
""")
def set_up_again():
    """`cancel` of nobody, and a station that sets up its interface again."""
    trace, phone, station = registered()
    trace.say("cancel " + NOBODYS_IMSI)
    trace.answers.append("refused 5")
    trace.set_up(station, connects=False)
    return trace


@failure("""\
IMSI 001010000000001
  at the end: SecurityMode

Station 0
! line 9, 0 s: UPLINK NAS TRANSPORT is refused: the octets spell no S1AP message: cut short (TS 36.413 clause 10.2)
""")
def cut_completion():
    """The station cuts the message that has SECURITY MODE COMPLETE."""
    trace, phone, station = secured()
    nas = phone.protected_up(lte.SECURITY_MODE_COMPLETE, header=4)
    trace.hear(station, lte.uplink_nas(trace.network, station, phone.m, phone.b, nas)[:-3])
    trace.owe("e0", station, lte.error_indication(lte.SYNTAX))
    return trace


def asks_service_aside(tmsi):
    """SERVICE REQUEST with this S-TMSI, or none, of which the MME knows nobody."""
    trace, phone, station = registered()
    phone.is_released()
    nas = lte.service_request(phone.key, phone.ksi, phone.up_count)
    trace.hear(station, lte.initial_ue_message(trace.network, station, 2, nas, tmsi))
    trace.owe("x0.2", station, lte.downlink_nas((1 << 31) + 2, 2, b"\x07\x4e\x09"))
    trace.owe("x0.2", station, lte.release_command((1 << 31) + 2, 2, lte.NORMAL_RELEASE))
    return trace


@failure("""\
A stranger, eNB UE S1AP ID 2 at station 0
! line 14, 0 s: SERVICE REQUEST is refused: it has no S-TMSI, and nothing else in it names a phone (TS 24.301 clause 5.6.1.5)
""")
def service_without_s_tmsi():
    """The station leaves the S-TMSI out."""
    return asks_service_aside(None)


@failure("""\
A stranger, eNB UE S1AP ID 2 at station 0
! line 14, 0 s: SERVICE REQUEST is refused: the S-TMSI, MME code 01 and M-TMSI 123456789, is of no subscriber of this MME \
(TS 24.301 clause 5.6.1.5)
""")
def service_with_unknown_s_tmsi():
    """The S-TMSI is of nobody here."""
    return asks_service_aside(123456789)


@failure("""\
A stranger, eNB UE S1AP ID 1 at station 0
! line 7, 0 s: EMM message type c7 is answered by a release: the message names nobody who is provisioned here \
(TS 24.301 clause 4.4.4.3)
""")
def type_that_no_message_has():
    """What would be an ATTACH REQUEST has another type, which is the first octet of SERVICE REQUEST (TS 24.301 clause 8.2.25)."""
    trace, phone, station = begun()
    esm = lte.pdn_connectivity_request(1, 1, False)
    nas = b"\x07\xc7" + lte.attach_request(1, lte.imsi_identity(phone.imsi), phone.capability, esm)[2:]
    trace.hear(station, lte.initial_ue_message(trace.network, station, 1, nas))
    trace.owe("x0.1", station, lte.release_command((1 << 31) + 1, 1, lte.NAS_UNSPECIFIED))
    return trace
