"""The octets of stations, phones and an MME, from the standards' formats alone: AES and CMAC (FIPS 197, RFC 4493), the key
derivations (TS 33.401 annex A), aligned packed encoding (X.691), S1AP (TS 36.413 clause 9) and NAS (TS 24.301 clauses 8 and 9).
It knows the messages of an attach, a release, a tracking area update and a path switch, as the MME's Release 8 profile has them.
"""
import hashlib
import hmac

# --- AES-128 and CMAC ---


def doubled(x):
    """The product with {02} (FIPS 197 clause 4.2.1)."""
    return ((x << 1) ^ 0x11B) & 0xFF if x & 0x80 else x << 1


def product(x, y):
    """The product in GF(2^8) (FIPS 197 clause 4.2)."""
    total = 0
    while y:
        if y & 1:
            total ^= x
        x, y = doubled(x), y >> 1
    return total


def substitution():
    """The S-box: the inverse in GF(2^8), then the affine map (FIPS 197 clause 5.1.1)."""
    box = []
    for x in range(256):
        inverse = next((y for y in range(256) if product(x, y) == 1), 0)
        image = 0x63
        for turn in range(5):
            image ^= ((inverse << turn) | (inverse >> (8 - turn))) & 0xFF
        box.append(image)
    return box


SBOX = substitution()
TWICE = [doubled(x) for x in range(256)]
# Where each octet of the state comes from in ShiftRows; the state is column by column.
SHIFTED = [(4 * (place // 4) + 5 * (place % 4)) % 16 for place in range(16)]


def round_keys(key):
    """The keys of all rounds (FIPS 197 clause 5.2)."""
    words = [list(key[4 * i:4 * i + 4]) for i in range(4)]
    constant = 1
    for i in range(4, 44):
        word = list(words[i - 1])
        if i % 4 == 0:
            word = [SBOX[x] for x in word[1:] + word[:1]]
            word[0] ^= constant
            constant = doubled(constant)
        words.append([x ^ y for x, y in zip(words[i - 4], word)])
    return [sum(words[4 * r:4 * r + 4], []) for r in range(11)]


def aes(keys, block):
    """AES-128 of one block under expanded round keys."""
    state = [x ^ k for x, k in zip(block, keys[0])]
    for turn in range(1, 11):
        state = [SBOX[state[place]] for place in SHIFTED]
        if turn < 10:
            mixed = []
            for at in range(0, 16, 4):
                a, b, c, d = state[at:at + 4]
                mixed += [TWICE[a] ^ TWICE[b] ^ b ^ c ^ d, a ^ TWICE[b] ^ TWICE[c] ^ c ^ d,
                          a ^ b ^ TWICE[c] ^ TWICE[d] ^ d, TWICE[a] ^ a ^ b ^ c ^ TWICE[d]]
            state = mixed
        state = [x ^ k for x, k in zip(state, keys[turn])]
    return bytes(state)


class Cmac:
    """CMAC under one key (RFC 4493)."""

    def __init__(self, key):
        self.keys = round_keys(key)
        subkeys, value = [], int.from_bytes(aes(self.keys, bytes(16)), "big")
        for _ in range(2):
            value = (value << 1) ^ (0x87 if value >> 127 else 0)
            value &= (1 << 128) - 1
            subkeys.append(value.to_bytes(16, "big"))
        self.whole, self.padded = subkeys

    def of(self, message):
        """The CMAC of octets."""
        blocks = max(1, (len(message) + 15) // 16)
        last = message[16 * (blocks - 1):]
        if len(last) == 16:
            last = bytes(x ^ y for x, y in zip(last, self.whole))
        else:
            last = bytes(x ^ y for x, y in zip(last + b"\x80" + bytes(15 - len(last)), self.padded))
        chain = bytes(16)
        for at in range(blocks - 1):
            chain = aes(self.keys, bytes(x ^ y for x, y in zip(chain, message[16 * at:16 * at + 16])))
        return aes(self.keys, bytes(x ^ y for x, y in zip(chain, last)))


UP, DOWN = 0, 1


def eia2(cmac, count, direction, message):
    """128-EIA2 with bearer 0 (TS 33.401 annex B.2.3)."""
    prefix = count.to_bytes(4, "big") + bytes([direction << 2, 0, 0, 0])
    return cmac.of(prefix + message)[:4]


def derived(kasme, code, *parameters):
    """The key derivation function (TS 33.401 annex A.1, TS 33.220 annex B.2)."""
    text = bytes([code])
    for parameter in parameters:
        text += parameter + len(parameter).to_bytes(2, "big")
    return hmac.new(kasme, text, hashlib.sha256).digest()


def nas_integrity_key(kasme):
    """The key of 128-EIA2 for NAS (TS 33.401 annex A.7)."""
    return derived(kasme, 0x15, b"\x02", b"\x02")[16:]


def kenb(kasme, count):
    """KeNB of an uplink NAS COUNT (TS 33.401 annex A.3)."""
    return derived(kasme, 0x11, count.to_bytes(4, "big"))


def next_hop(kasme, previous):
    """The next hop key after KeNB or another (TS 33.401 annex A.4)."""
    return derived(kasme, 0x12, previous)


# --- Aligned packed encoding ---


class Bits:
    """Bits of one complete encoding (X.691, aligned)."""

    def __init__(self):
        self.value, self.count = 0, 0

    def put(self, number, width):
        """A number in `width` bits."""
        self.value, self.count = (self.value << width) | number, self.count + width
        return self

    def align(self):
        """Zeros up to the next octet."""
        return self.put(0, -self.count % 8)

    def octets(self, octets):
        """Octets, from the next octet on."""
        self.align()
        return self.put(int.from_bytes(octets, "big"), 8 * len(octets))

    def whole(self, number, low, high):
        """A number of a range (clause 11.5.7)."""
        span, offset = high - low + 1, number - low
        if span == 1:
            return self
        if span <= 255:
            return self.put(offset, (span - 1).bit_length())
        if span <= 65536:
            return self.align().put(offset, 8 if span == 256 else 16)
        most = ((high - low).bit_length() + 7) // 8
        size = max(1, (offset.bit_length() + 7) // 8)
        return self.whole(size, 1, most).octets(offset.to_bytes(size, "big"))

    def length(self, count):
        """A length without bound (clause 11.9.3.6)."""
        self.align()
        return self.put(count, 8) if count < 128 else self.put(0x8000 | count, 16)

    def open(self, octets):
        """Octets with their length before them (clause 11.2)."""
        return self.length(len(octets)).octets(octets)

    def done(self):
        """The octets of a complete encoding, one at the least."""
        self.align()
        return self.value.to_bytes(self.count // 8, "big") or b"\0"


def bits(*puts):
    """The octets of numbers with their widths, as `bits((0, 1), (5, 3))`."""
    out = Bits()
    for number, width in puts:
        out.put(number, width)
    return out.done()


# --- Ids that the MME gives: a subscriber's, its slot in provisioning above a counter that goes round ---

SLOTS = 1 << 15  # room for subscribers
IDS_OF_A_SLOT = 1 << 16  # MME UE S1AP IDs of a slot, and M-TMSIs


def id_of_slot(slot, counter):
    """The id of a slot by its counter."""
    return slot * IDS_OF_A_SLOT + counter % IDS_OF_A_SLOT


# --- Elements of S1AP (TS 36.413 clause 9.2); each SEQUENCE begins with the extension bit and that of iE-Extensions ---

REJECT, IGNORE = 0, 1


def mme_id(number):
    """MME UE S1AP ID."""
    return 0, Bits().whole(number, 0, 2**32 - 1).done()


def enb_id(number):
    """eNB UE S1AP ID."""
    return 8, Bits().whole(number, 0, 2**24 - 1).done()


def nas_pdu(octets):
    """NAS-PDU."""
    return 26, Bits().open(octets).done()


def tai(network, tac):
    """TAI."""
    return 67, Bits().put(0, 2).octets(network.s1ap_plmn).put(tac, 16).done()


def cell(network, number):
    """E-UTRAN CGI."""
    return 100, Bits().put(0, 2).octets(network.s1ap_plmn).put(number, 28).done()


def rrc_cause(number):
    """RRC Establishment Cause."""
    return 134, bits((0, 1), (number, 3))


RADIO, NAS = (0, 6), (2, 2)
USER_INACTIVITY, UNKNOWN_MME_ID, UNKNOWN_PAIR = (RADIO, 20), (RADIO, 13), (RADIO, 15)
NORMAL_RELEASE, DETACHED, NAS_UNSPECIFIED = (NAS, 0), (NAS, 2), (NAS, 3)
SYNTAX, NOT_COMPATIBLE = ((3, 3), 0), ((3, 3), 3)
OM_INTERVENTION = ((4, 3), 3)


def cause(group_and_number):
    """Cause, by its group and its number there."""
    (group, width), number = group_and_number
    return 2, bits((0, 1), (group, 3), (0, 1), (number, width))


def pair(m, b):
    """UE-S1AP-IDs, the alternative of both ids."""
    out = Bits().put(0, 2).put(0, 2)
    return 99, out.whole(m, 0, 2**32 - 1).whole(b, 0, 2**24 - 1).done()


RAB = 5


def address_and_tunnel(item, address, teid):
    """A transport layer address of 32 bits, and a tunnel's end."""
    return item.put(0, 1).whole(32, 1, 160).octets(address).octets(teid)


def put_list(out, number, criticality, items):
    """The octets with a list after them, each item an element with this id and criticality."""
    out.whole(len(items), 1, 256)
    for item in items:
        out.put(number, 16).put(criticality, 2).open(item.done())
    return out.done()


def listed_item(number, criticality, item):
    """A list of one item."""
    return put_list(Bits(), number, criticality, [item])


def rab_at(number, criticality, address, teid):
    """A list of the one E-RAB with an address and a tunnel's end."""
    item = Bits().put(0, 2).put(0, 1).whole(RAB, 0, 15)
    return listed_item(number, criticality, address_and_tunnel(item, address, teid))


def rab_to_set_up(address, teid, nas=None):
    """A list of the one E-RAB to set up, with QCI 9, priority 15 and the NAS message that goes with it."""
    carried = nas is not None
    item = Bits().put(0, 1).put(carried, 1).put(0, 1).put(0, 1).whole(RAB, 0, 15)
    item.put(0, 3).whole(9, 0, 255)
    item.put(0, 2).whole(15, 0, 15).put(0, 2)
    address_and_tunnel(item, address, teid)
    return 24, listed_item(52, REJECT, item.open(nas) if carried else item)


def bit_rates(down, up):
    """UE Aggregate Maximum Bit Rate."""
    return 66, Bits().put(0, 2).whole(down, 0, 10**10).whole(up, 0, 10**10).done()


def capabilities(algorithms):
    """The UE's security capabilities: EEA and EIA octets without their first bits, as the first 8 of 16 bits."""
    eea, eia = (algorithms[at] << 1 & 0xFF for at in (0, 1))
    return 107, bits((0, 2), (0, 1), (eea << 8, 16), (0, 1), (eia << 8, 16))


def s_tmsi(network, tmsi):
    """S-TMSI."""
    return 96, Bits().put(0, 2).put(network.code[0], 8).octets(tmsi.to_bytes(4, "big")).done()


def paging_index(imsi):
    """UE Identity Index value."""
    return 80, bits((int(imsi) % 1024, 10))


def paging_identity(network, tmsi):
    """UEPagingID, the alternative of the S-TMSI."""
    out = Bits().put(0, 2).put(0, 2).put(network.code[0], 8)
    return 43, out.octets(tmsi.to_bytes(4, "big")).done()


def paging_areas(network, tac):
    """List of TAIs, of one."""
    return 46, listed_item(47, IGNORE, Bits().octets(tai(network, tac)[1]))


def security_key(key):
    """Security Key."""
    return 73, key


def security_context(chaining, key):
    """Security Context: next hop and its counter."""
    return 40, Bits().put(0, 2).whole(chaining, 0, 7).octets(key).done()


def association(ids):
    """An association by its MME UE S1AP ID and its eNB UE S1AP ID, nothing for one that isn't given."""
    m, b = ids
    item = Bits().put(0, 1).put(m is not None, 1).put(b is not None, 1).put(0, 1)
    if m is not None:
        item.whole(m, 0, 2**32 - 1)
    if b is not None:
        item.whole(b, 0, 2**24 - 1)
    return item


WHOLE_INTERFACE = 92, bits((0, 3))


def part_of_interface(*associations):
    """ResetType, the alternative of a list of associations, each by its ids."""
    return 92, put_list(Bits().put(0, 1).put(1, 1), 91, REJECT, [association(ids) for ids in associations])


def associations_reset(*associations):
    """The list of RESET ACKNOWLEDGE, each association by its ids."""
    return 93, put_list(Bits(), 91, IGNORE, [association(ids) for ids in associations])


def enb_identity(network, number):
    """Global eNB ID, of a macro eNB."""
    return 59, Bits().put(0, 2).octets(network.s1ap_plmn).put(0, 2).align().put(number, 20).done()


def supported_areas(network, tac):
    """Supported TAs, of one area in one network."""
    out = Bits().whole(1, 1, 256).put(0, 2).put(tac, 16)
    return 64, out.whole(1, 1, 6).octets(network.s1ap_plmn).done()


def served_gummeis(network):
    """Served GUMMEIs, of one."""
    out = Bits().whole(1, 1, 8).put(0, 2)
    out.whole(1, 1, 32).octets(network.s1ap_plmn)
    out.whole(1, 1, 65535).put(int.from_bytes(network.group, "big"), 16)
    return 105, out.whole(1, 1, 256).put(network.code[0], 8).done()


# --- Messages of S1AP (TS 36.413 clause 9.1) ---

INITIATING, SUCCESSFUL, UNSUCCESSFUL = 0, 1, 2


def s1ap(kind, code, criticality, *elements):
    """A message of elements, each with its criticality before it."""
    value = Bits().put(0, 1).whole(len(elements), 0, 65535)
    for named, (number, octets) in elements:
        value.whole(number, 0, 65535).put(named, 2).open(octets)
    frame = Bits().put(0, 1).put(kind, 2).whole(code, 0, 255).put(criticality, 2)
    return frame.open(value.done()).done()


def s1_setup_request(network, station):
    """S1 SETUP REQUEST."""
    return s1ap(INITIATING, 17, REJECT, (REJECT, enb_identity(network, station.identity)),
                (REJECT, supported_areas(network, station.tac)), (IGNORE, (137, bits((0, 1), (2, 2)))))


def s1_setup_response(network):
    """S1 SETUP RESPONSE."""
    return s1ap(SUCCESSFUL, 17, REJECT, (REJECT, served_gummeis(network)), (IGNORE, (87, b"\xff")))


def initial_ue_message(network, station, b, nas, tmsi=None):
    """With an S-TMSI where there is one."""
    named = [] if tmsi is None else [(REJECT, s_tmsi(network, tmsi))]
    return s1ap(INITIATING, 12, IGNORE, (REJECT, enb_id(b)), (REJECT, nas_pdu(nas)), (REJECT, tai(network, station.tac)),
                (IGNORE, cell(network, station.cell)), (IGNORE, rrc_cause(3)), *named)


def uplink_nas(network, station, m, b, nas):
    """UPLINK NAS TRANSPORT."""
    return s1ap(INITIATING, 13, IGNORE, (REJECT, mme_id(m)), (REJECT, enb_id(b)), (REJECT, nas_pdu(nas)),
                (IGNORE, cell(network, station.cell)), (IGNORE, tai(network, station.tac)))


def downlink_nas(m, b, nas):
    """DOWNLINK NAS TRANSPORT."""
    return s1ap(INITIATING, 11, IGNORE, (REJECT, mme_id(m)), (REJECT, enb_id(b)), (REJECT, nas_pdu(nas)))


def context_setup_request(network, m, b, subscriber, key, nas=None):
    """INITIAL CONTEXT SETUP REQUEST, with a NAS message or none."""
    listed = rab_to_set_up(subscriber.gateway, subscriber.teid, nas)
    return s1ap(INITIATING, 9, REJECT, (REJECT, mme_id(m)), (REJECT, enb_id(b)), (REJECT, bit_rates(*network.rates)),
                (REJECT, listed), (REJECT, capabilities(subscriber.capability)), (REJECT, security_key(key)))


def context_setup_response(station, m, b):
    """INITIAL CONTEXT SETUP RESPONSE."""
    listed = 51, rab_at(50, IGNORE, station.address, b.to_bytes(4, "big"))
    return s1ap(SUCCESSFUL, 9, REJECT, (IGNORE, mme_id(m)), (IGNORE, enb_id(b)), (IGNORE, listed))


def release_request(m, b, why):
    """UE CONTEXT RELEASE REQUEST."""
    return s1ap(INITIATING, 18, IGNORE, (REJECT, mme_id(m)), (REJECT, enb_id(b)), (IGNORE, cause(why)))


def release_command(m, b, why):
    """UE CONTEXT RELEASE COMMAND."""
    return s1ap(INITIATING, 23, REJECT, (REJECT, pair(m, b)), (IGNORE, cause(why)))


def release_complete(m, b):
    """UE CONTEXT RELEASE COMPLETE."""
    return s1ap(SUCCESSFUL, 23, REJECT, (IGNORE, mme_id(m)), (IGNORE, enb_id(b)))


def error_indication(why, ids=()):
    """With both ids, or without them."""
    named = [(IGNORE, mme_id(ids[0])), (IGNORE, enb_id(ids[1]))] if ids else []
    return s1ap(INITIATING, 15, IGNORE, *named, (IGNORE, cause(why)))


def reset(reset_type=WHOLE_INTERFACE, why=OM_INTERVENTION):
    """RESET, of the whole interface or of a part."""
    return s1ap(INITIATING, 14, REJECT, (IGNORE, cause(why)), (REJECT, reset_type))


def reset_acknowledge(*associations):
    """With the associations of a part, or without a list."""
    named = [(IGNORE, associations_reset(*associations))] if associations else []
    return s1ap(SUCCESSFUL, 14, REJECT, *named)


def paging(network, imsi, tmsi, tac):
    """PAGING."""
    return s1ap(INITIATING, 10, IGNORE, (IGNORE, paging_index(imsi)), (IGNORE, paging_identity(network, tmsi)),
                (IGNORE, (109, b"\0")), (IGNORE, paging_areas(network, tac)))


def path_switch_request(network, station, m, b, capability):
    """PATH SWITCH REQUEST."""
    listed = 22, rab_at(23, REJECT, station.address, b.to_bytes(4, "big"))
    return s1ap(INITIATING, 3, REJECT, (REJECT, enb_id(b)), (REJECT, listed), (REJECT, (88, mme_id(m)[1])),
                (IGNORE, cell(network, station.cell)), (IGNORE, tai(network, station.tac)), (IGNORE, capabilities(capability)))


def path_switch_failure(m, b, why):
    """PATH SWITCH REQUEST FAILURE."""
    return s1ap(UNSUCCESSFUL, 3, REJECT, (IGNORE, mme_id(m)), (IGNORE, enb_id(b)), (IGNORE, cause(why)))


def path_switch_acknowledge(m, b, chaining, key):
    """PATH SWITCH REQUEST ACKNOWLEDGE."""
    return s1ap(SUCCESSFUL, 3, REJECT, (IGNORE, mme_id(m)), (IGNORE, enb_id(b)), (REJECT, security_context(chaining, key)))


# --- NAS (TS 24.301 clauses 8 and 9) ---


def sized(octets):
    """Octets after their number in one octet."""
    return bytes([len(octets)]) + octets


def long_sized(octets):
    """Octets after their number in two octets."""
    return len(octets).to_bytes(2, "big") + octets


def imsi_identity(imsi):
    """The mobile identity of an IMSI (clause 9.9.3.12)."""
    odd = len(imsi) % 2
    halves = [int(digit) for digit in imsi] + ([] if odd else [15])
    octets = [halves[0] << 4 | odd << 3 | 1]
    octets += [halves[at + 1] << 4 | halves[at] for at in range(1, len(halves), 2)]
    return bytes(octets)


def guti(network, tmsi):
    """The mobile identity of a GUTI (clause 9.9.3.12)."""
    return b"\xf6" + network.nas_plmn + network.group + network.code + tmsi.to_bytes(4, "big")


def tai_list(network, tac):
    """A list of one tracking area (clause 9.9.3.33)."""
    return b"\0" + network.nas_plmn + tac.to_bytes(2, "big")


def pdn_connectivity_request(transaction, pdn_type, asks_information):
    """PDN CONNECTIVITY REQUEST."""
    return bytes([0x02, transaction, 0xD0, pdn_type << 4 | 1]) + (b"\xd1" if asks_information else b"")


def attach_request(attach_type, identity, capability, esm):
    """ATTACH REQUEST."""
    return bytes([0x07, 0x41, 0x70 | attach_type]) + sized(identity) + sized(capability) + long_sized(esm)


def authentication_request(ksi, vector):
    """AUTHENTICATION REQUEST."""
    return bytes([0x07, 0x52, ksi]) + vector.rand + sized(vector.autn)


def authentication_response(res):
    """AUTHENTICATION RESPONSE."""
    return b"\x07\x53" + sized(res)


def security_mode_command(ksi, capability):
    """EEA0 and EIA2; the capability as it was received: EEA, EIA, and where UMTS is there, UEA and UIA without its first bit."""
    replayed = capability[:2]
    if len(capability) >= 4:
        replayed += bytes([capability[2], capability[3] & 0x7F])
    return bytes([0x07, 0x5D, 0x02, ksi]) + sized(replayed)


def activate_default_bearer(network, transaction, address, pdn_type):
    """ACTIVATE DEFAULT EPS BEARER CONTEXT REQUEST."""
    apn = sized(sized(network.apn))
    fallback = b"\x58\x32" if pdn_type == 3 else b""
    return bytes([0x52, transaction, 0xC1]) + b"\x01\x09" + apn + b"\x05\x01" + address + fallback


def attach_accept(network, tac, tmsi, attach_type, esm):
    """ATTACH ACCEPT."""
    only_eps = b"\x53\x12" if attach_type == 2 else b""
    return (b"\x07\x42\x01\x49" + sized(tai_list(network, tac)) + long_sized(esm)
            + b"\x50" + sized(guti(network, tmsi)) + only_eps)


def tau_request(update_type, ksi, network, tmsi):
    """TRACKING AREA UPDATE REQUEST."""
    return bytes([0x07, 0x48, ksi << 4 | update_type]) + sized(guti(network, tmsi))


def tau_accept(network, tac, tmsi, update_type):
    """TRACKING AREA UPDATE ACCEPT."""
    only_eps = b"\x53\x12" if update_type & 7 in (1, 2) else b""
    return (b"\x07\x49\x00\x5a\x49\x50" + sized(guti(network, tmsi)) + b"\x54" + sized(tai_list(network, tac)) + only_eps)


def service_request(cmac, ksi, count):
    """The key set and the count's low 5 bits, and the last two octets of the MAC (clause 8.2.25)."""
    head = bytes([0xC7, ksi << 5 | count % 32])
    return head + eia2(cmac, count, UP, head)[2:]


def detach_request(identity, ksi, switch_off):
    """DETACH REQUEST of a phone."""
    return bytes([0x07, 0x45, ksi << 4 | switch_off << 3 | 1]) + sized(identity)


def identity_response(identity):
    """IDENTITY RESPONSE."""
    return b"\x07\x56" + sized(identity)


DETACH_ACCEPT, NETWORK_DETACH = b"\x07\x46", b"\x07\x45\x02"
IDENTITY_REQUEST = b"\x07\x55\x01"
SECURITY_MODE_COMPLETE = b"\x07\x5e"
ATTACH_COMPLETE = b"\x07\x43" + long_sized(b"\x52\x00\xc2")
TAU_COMPLETE = b"\x07\x4a"
INFORMATION_REQUEST, INFORMATION_RESPONSE = 0xD9, 0xDA


def check():
    """The examples of FIPS 197 (appendix C.1), RFC 4493 (clause 4) and RFC 4231 (clause 4.3)."""
    octets = bytes.fromhex
    keys = round_keys(octets("000102030405060708090a0b0c0d0e0f"))
    assert aes(keys, octets("00112233445566778899aabbccddeeff")) == octets("69c4e0d86a7b0430d8cdb78070b4c55a")
    cmac = Cmac(octets("2b7e151628aed2a6abf7158809cf4f3c"))
    text = octets("6bc1bee22e409f96e93d7e117393172aae2d8a571e03ac9c9eb76fac45af8e51"
                  "30c81c46a35ce411e5fbc1191a0a52eff69f2445df4f9b17ad2b417be66c3710")
    for length, mac in ((0, "bb1d6929e95937287fa37d129b756746"), (16, "070a16b46b4d4144f79bdd9dd04a287c"),
                        (40, "dfa66747de9ae63030ca32611497c827"), (64, "51f0bebf7e3b9d92fc49741779363cfe")):
        assert cmac.of(text[:length]) == octets(mac)
    digest = hmac.new(b"Jefe", b"what do ya want for nothing?", hashlib.sha256).hexdigest()
    assert digest == "5bdcc146bf60754e6a042426089575c75a003f089d2739839dec58b964ec3843"


if __name__ == "__main__":
    check()
    print("the examples of FIPS 197, RFC 4493 and RFC 4231 are met")
