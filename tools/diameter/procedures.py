"""The procedures of S6a that an MME begins (TS 29.272 clause 5): what is asked, and what an answer means."""
from tools.diameter import avps
from tools.diameter.messages import Command
from tools.diameter.results import OF_NOBODY, Experimental, Result, is_success, name_of
from tools.sourcing.asking import LATER, REGISTERED, UNKNOWN, VECTORS, answer as answered, vector_lines
from tools.sourcing.milenage import BLOCK, SQN_OCTETS, Vector, is_for_eps, plmn_octets

MOST_AT_ONCE = 5  # vectors that an HSS is asked for in one request
EUTRAN = 1004  # of RAT-Type (TS 29.212 clause 5.3.31)
ON_S6A, INITIAL_ATTACH = 1 << 1, 1 << 5  # of ULR-Flags (TS 29.272 clause 7.3.7)
KASME_OCTETS, XRES_OCTETS = 32, range(4, 17)


class NoSuccess(Exception):
    """Why there is no success; `word` is what is answered."""

    def __init__(self, text, word=LATER):
        super().__init__(text)
        self.word = word


# --- Requests: the command and its own AVPs ---


def of_vectors(imsi, count, plmn, resynchronization):
    """Authentication-Information-Request (clause 7.2.5), with RAND and AUTS where a phone has another SQN."""
    wanted = [(avps.NUMBER_OF_REQUESTED_VECTORS, count), (avps.IMMEDIATE_RESPONSE_PREFERRED, 1)]
    if resynchronization:
        wanted.append((avps.RE_SYNCHRONIZATION_INFO, resynchronization))
    return Command.AUTHENTICATION_INFORMATION, [
        (avps.USER_NAME, imsi), (avps.REQUESTED_EUTRAN_AUTHENTICATION_INFO, wanted), (avps.VISITED_PLMN_ID, plmn)]


def of_registration(imsi, plmn):
    """Update-Location-Request (clause 7.2.3)."""
    return Command.UPDATE_LOCATION, [(avps.USER_NAME, imsi), (avps.RAT_TYPE, EUTRAN), (avps.ULR_FLAGS, ON_S6A | INITIAL_ATTACH),
                                     (avps.VISITED_PLMN_ID, plmn)]


def of_purge(imsi):
    """Purge-UE-Request (clause 7.2.13)."""
    return Command.PURGE_UE, [(avps.USER_NAME, imsi)]


# --- Answers ---


def check(answer):
    """Raises NoSuccess unless an answer says success."""
    found = answer.avps.first(avps.EXPERIMENTAL_RESULT)
    if found is not None:
        code, is_of_3gpp = found.first(avps.EXPERIMENTAL_RESULT_CODE, 0), found.first(avps.VENDOR_ID) == avps.VENDOR_3GPP
        if not is_success(code):
            raise NoSuccess("the HSS says %s" % name_of(code, Experimental), UNKNOWN if is_of_3gpp and code in OF_NOBODY else LATER)
        return
    code = answer.avps.first(avps.RESULT_CODE, 0)
    if not is_success(code):
        who, text = answer.avps.first(avps.ORIGIN_HOST, "the HSS"), answer.avps.first(avps.ERROR_MESSAGE, "")
        raise NoSuccess("%s says %s%s" % (who, name_of(code, Result), text and ": " + text))


def vector_of(group):
    """An E-UTRAN-Vector (clause 7.3.18)."""
    vector = Vector(*(group.first(part, b"") for part in (avps.RAND, avps.AUTN, avps.XRES, avps.KASME)))
    sizes = len(vector.rand), len(vector.autn), len(vector.kasme)
    if sizes != (BLOCK, BLOCK, KASME_OCTETS) or len(vector.xres) not in XRES_OCTETS:
        raise NoSuccess("a vector of the HSS lacks a part, or has one of another length")
    if not is_for_eps(vector.autn[SQN_OCTETS:]):
        raise NoSuccess("a vector of the HSS isn't for EPS: the AMF's separation bit is 0 (TS 33.401 clause 6.1.2)")
    return vector


def vectors_of(answer):
    """The vectors of an Authentication-Information-Answer, in the order in which they are to be used."""
    check(answer)
    info = answer.avps.first(avps.AUTHENTICATION_INFO, avps.Group())
    groups = sorted(info.every(avps.E_UTRAN_VECTOR), key=lambda group: group.first(avps.ITEM_NUMBER, 0))
    if not groups:
        raise NoSuccess("the HSS says success, and has no vector")
    return [vector_of(group) for group in groups]


# --- Procedures: each yields what the HSS is asked, gets its answers, and returns the lines that come of it ---


def gathering(request):
    """Vectors, for which an HSS may have to be asked several times; where the phone's SQN is, it is told once."""
    plmn, vectors = plmn_octets(request.mcc, request.mnc), []
    while len(vectors) < request.count:
        resynchronization = request.rand + request.auts if request.auts and not vectors else b""
        asked = yield of_vectors(request.imsi, min(request.count - len(vectors), MOST_AT_ONCE), plmn, resynchronization)
        vectors += vectors_of(asked)
    return vector_lines(request.imsi, vectors[:request.count])


def telling(request, plmn):
    """Where a phone is: here, in this network, or gone."""
    check((yield of_registration(request.imsi, plmn) if request.word == REGISTERED else of_purge(request.imsi)))
    return answered(request.word, request.imsi)


def of_request(request, plmn):
    """The procedure of a request."""
    return gathering(request) if request.word == VECTORS else telling(request, plmn)
