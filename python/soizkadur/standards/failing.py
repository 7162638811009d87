"""A phone that fails, or does what phones shouldn't, with what the MME owes for it (TS 24.301, docs/TABLE.md)."""
from collections.abc import Callable

from . import lte, phones

needs = phones.needs
AUTHENTICATION_REJECT = b"\x07\x54"
NO_SUCH_SUBSCRIBER, NETWORK_FAILURE, ESM_FAILURE, UNSPECIFIED = 8, 17, 19, 111  # EMM causes (TS 24.301 clause 9.9.3.9)
MAC_FAILURE, SYNCH_FAILURE, NON_EPS = 20, 21, 26
ONLY_IPV4 = 50  # ESM cause (clause 9.9.4.4)
CAPABILITIES_MISMATCH = 23
IPV6 = 2
WITHOUT_EIA2 = b"\xe0\x40"
FAILED = lte.NAS, 1  # nas authentication-failure (TS 36.413 clause 9.2.1.3)
FOREIGN_GUTI = bytes.fromhex("f602f83900010212345678")  # of another network (TS 24.301 clause 9.9.3.12)
FIRST_STRANGER = 1 << 31
AUTS_OCTETS = 14
T3450 = T3460 = T3470 = 6  # seconds
T3489 = 4
REPEATS, REPEATS_OF_T3489 = 4, 2


def turned(octets: bytes, place: int) -> bytes:
    """The octets with one bit turned."""
    place %= len(octets)
    return octets[:place] + bytes([octets[place] ^ 1]) + octets[place + 1:]


class FailingPhone(phones.Phone):
    """A phone of `phones.Phone`, whose steps it has, and these."""

    last: tuple | None = None  # the station and the octets of the message that was sent last
    gave_up: tuple | None = None  # the station and the ids of the connection that the network gave up
    lacks = {**phones.Phone.lacks, "last": "has sent no message by a connection; authenticates is the first",
             "gave_up": "wasn't given up by the network; holds_back_response brings that"}

    # --- What goes wrong in an attach ---

    def asks(self, station, b: int, *, imsi: str | None = None, pdn_type: int = 1) -> bytes:
        """The octets of an ATTACH REQUEST as NAS. Nothing is sent: `asks_to_attach` sends one."""
        esm = lte.pdn_connectivity_request(1, pdn_type, False)
        return lte.attach_request(1, lte.imsi_identity(imsi or self.imsi), self.capability, esm)

    @needs("station")
    def is_rejected(self, cause: int, esm: bytes = b"") -> None:
        """Owed ATTACH REJECT and the release (clause 5.5.1.2.5)."""
        self.owed_nas(bytes([0x07, 0x44, cause]) + (b"\x78" + lte.long_sized(esm) if esm else b""))
        self.owed(lte.release_command(self.m, self.b, lte.NORMAL_RELEASE))
        self.goes()

    def asks_for_ipv6(self, station, b: int) -> None:
        """ATTACH REQUEST for IPv6 alone; owed its reject, with that of the connectivity (clause 6.5.1.4)."""
        self.sends_first(station, b, self.asks(station, b, pdn_type=IPV6))
        self.is_rejected(ESM_FAILURE, bytes([0x02, 0x01, 0xD1, ONLY_IPV4]))

    def asks_without_eia2(self, station, b: int) -> None:
        """ATTACH REQUEST of a phone that hasn't 128-EIA2; owed its reject."""
        kept, self.capability = self.capability, WITHOUT_EIA2
        self.sends_first(station, b, self.asks(station, b))
        self.capability = kept
        self.is_rejected(UNSPECIFIED)

    def asks_without_vector(self, station, b: int) -> None:
        """ATTACH REQUEST of a subscriber whose vectors are used up; owed its reject."""
        if self.unused:
            raise phones.OutOfPlace("asks_without_vector: the phone with IMSI %s has vectors; attaches uses one up" % self.imsi)
        self.sends_first(station, b, self.asks(station, b))
        self.is_rejected(NETWORK_FAILURE)

    def asks_as_nobody(self, station, b: int, imsi: str) -> None:
        """ATTACH REQUEST with an IMSI that nobody has; owed its reject, as a stranger."""
        self.trace.hear(station, lte.initial_ue_message(self.network, station, b, self.asks(station, b, imsi=imsi)))
        self.owed_as_stranger(station, b, lte.downlink_nas(stranger(station, b), b, bytes([0x07, 0x44, NO_SUCH_SUBSCRIBER])))
        self.owed_as_stranger(station, b, lte.release_command(stranger(station, b), b, lte.NORMAL_RELEASE))

    def withholds_identity(self, station, b: int) -> None:
        """ATTACH REQUEST with the GUTI of another network, and no answer to IDENTITY REQUEST, which comes four times again before
        the network gives up (clause 5.4.4.6)."""
        esm = lte.pdn_connectivity_request(1, 1, False)
        nas = lte.attach_request(1, FOREIGN_GUTI, self.capability, esm)
        asked = lte.downlink_nas(stranger(station, b), b, lte.IDENTITY_REQUEST)
        self.trace.hear(station, lte.initial_ue_message(self.network, station, b, nas))
        self.owed_as_stranger(station, b, asked)
        for _ in range(REPEATS):
            self.trace.say("tick %d" % T3470)
            self.owed_as_stranger(station, b, asked)
        self.trace.say("tick %d" % T3470)
        self.owed_as_stranger(station, b, lte.release_command(stranger(station, b), b, lte.NAS_UNSPECIFIED))

    def owed_as_stranger(self, station, b: int, octets: bytes) -> None:
        """Owed this message as a phone that no subscriber is known for."""
        self.trace.owe("x%d.%d" % (station.number, b), station, octets)

    @needs("station")
    def fails_authentication(self) -> None:
        """What those steps end with that fail authentication: owed AUTHENTICATION REJECT and the release (clause 5.4.2.5), which
        the station completes."""
        self.owed_nas(AUTHENTICATION_REJECT)
        self.owed(lte.release_command(self.m, self.b, FAILED))
        self.goes()

    @needs("station", "vector")
    def gives_wrong_res(self) -> None:
        """AUTHENTICATION RESPONSE with another RES than XRES; owed AUTHENTICATION REJECT and the release, which the station
        completes."""
        self.sends(lte.authentication_response(turned(self.vector.xres, -1)))
        self.fails_authentication()

    @needs("station", "vector")
    def refuses_the_network(self, cause: int = MAC_FAILURE) -> None:
        """AUTHENTICATION FAILURE for the MAC (20), or since the vector isn't for EPS (26); owed AUTHENTICATION REJECT and the
        release, which the station completes."""
        assert cause in (MAC_FAILURE, NON_EPS), "is_out_of_step is the one for cause 21"
        self.sends(bytes([0x07, 0x5C, cause]))
        self.fails_authentication()

    @needs("station", "vector")
    def is_out_of_step(self, auts: bytes = bytes(AUTS_OCTETS)) -> None:
        """AUTHENTICATION FAILURE for the sequence number, with AUTS; owed a challenge by the next vector, or where none is left the
        reject of the attach (clause 5.4.2.7 e)."""
        self.sends(bytes([0x07, 0x5C, SYNCH_FAILURE, 0x30]) + lte.sized(auts))
        if self.place == len(self.vectors):
            self.is_rejected(NETWORK_FAILURE)
            return
        self.vector, self.ksi = self.vectors[self.place], self.place % 7
        self.place += 1
        self.owed_nas(lte.authentication_request(self.ksi, self.vector))

    @needs("station", "key")
    def rejects_security(self, cause: int = CAPABILITIES_MISMATCH) -> None:
        """SECURITY MODE REJECT; owed the release (clause 5.4.3.5)."""
        self.sends(bytes([0x07, 0x5F, cause]))
        self.owed(lte.release_command(self.m, self.b, lte.NAS_UNSPECIFIED))
        self.goes()

    # --- Messages that are held back, doubled, forged or late ---

    @needs("station")
    def sends(self, nas: bytes) -> None:
        """A NAS message by UPLINK NAS TRANSPORT. What is owed for it is said after it, by `owed_nas`, `owed` or a step that ends a
        procedure; an answer that isn't owed is found at the next line."""
        self.last = self.station, lte.uplink_nas(self.network, self.station, self.m, self.b, nas)
        super().sends(nas)

    @needs("last")
    def says_it_again(self) -> None:
        """The last uplink message comes once more, as it was; owed nothing: the phase is another, or the count is used."""
        self.trace.hear(*self.last)

    @needs("station", "key")
    def forges(self, message: bytes, header: int = 2) -> None:
        """A message under the next count whose MAC has a bit turned; owed nothing."""
        super().sends(turned(self.secured(header, self.up_count, lte.UP, message), 1))

    @needs("station")
    def holds_back(self, again: Callable[[], bytes], seconds: int, repeats: int) -> None:
        """Nothing is sent: what the network waits for an answer to comes again, then the network gives up."""
        for _ in range(repeats):
            self.trace.say("tick %d" % seconds)
            self.owed_nas(again())
        self.trace.say("tick %d" % seconds)
        self.gave_up = self.station, self.m, self.b
        self.owed(lte.release_command(self.m, self.b, lte.NAS_UNSPECIFIED))
        self.goes()

    @needs("station", "vector")
    def holds_back_response(self) -> None:
        """No answer to AUTHENTICATION REQUEST (clause 5.4.2.7 b)."""
        self.holds_back(lambda: lte.authentication_request(self.ksi, self.vector), T3460, REPEATS)

    @needs("station", "key")
    def holds_back_security(self) -> None:
        """No answer to SECURITY MODE COMMAND (clause 5.4.3.7 b)."""
        command = lte.security_mode_command(self.ksi, self.capability)
        self.holds_back(lambda: self.protected_down(command, header=3), T3460, REPEATS)

    @needs("station", "key")
    def holds_back_information(self) -> None:
        """No answer to ESM INFORMATION REQUEST (clause 6.6.1.2.6)."""
        self.holds_back(lambda: self.protected_down(bytes([2, 1, lte.INFORMATION_REQUEST])), T3489, REPEATS_OF_T3489)

    @needs("station", "key", "tmsis")
    def holds_back_completion(self) -> None:
        """No ATTACH COMPLETE: ATTACH ACCEPT comes again, alone (clause 5.5.1.2.7 c)."""
        esm = lte.activate_default_bearer(self.network, 1, self.address, self.pdn_type)
        accept = lte.attach_accept(self.network, self.accepted_tac, self.tmsi, self.attach_type, esm)
        self.holds_back(lambda: self.protected_down(accept), T3450, REPEATS)

    @needs("gave_up")
    def answers_too_late(self) -> None:
        """AUTHENTICATION RESPONSE after the network gave up; owed ERROR INDICATION: there is no such association."""
        station, m, b = self.gave_up
        self.trace.hear(station, lte.uplink_nas(self.network, station, m, b, lte.authentication_response(self.vector.xres)))
        self.trace.owe("s%d" % self.slot, station, lte.error_indication(lte.UNKNOWN_MME_ID, (m, b)))


def stranger(station, b: int) -> int:
    """The MME UE S1AP ID of a phone that no subscriber is known for."""
    return FIRST_STRANGER + (station.number << 24) + b
