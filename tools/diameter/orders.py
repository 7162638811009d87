"""What an HSS orders (TS 29.272 clauses 5.2.1.2, 5.2.2 and 5.2.3.2): requests to the MME, and how they are answered."""
import collections
import re
import time

from tools.diameter import avps
from tools.diameter.client import NO_STATE_MAINTAINED
from tools.diameter.messages import BASE, S6A, Command
from tools.diameter.peer import identity, s6a_application
from tools.diameter.results import Experimental, Result
from tools.sourcing.asking import CANCEL, RESET, answer

OF_ALL = (avps.SESSION_ID, avps.AUTH_SESSION_STATE, avps.ORIGIN_HOST, avps.ORIGIN_REALM, avps.DESTINATION_HOST,
          avps.DESTINATION_REALM)
# The AVPs that each order has to have (TS 29.272 clause 7.2).
REQUIRED = {
    Command.CANCEL_LOCATION: (*OF_ALL, avps.USER_NAME, avps.CANCELLATION_TYPE),
    Command.INSERT_SUBSCRIBER_DATA: (*OF_ALL, avps.USER_NAME, avps.SUBSCRIPTION_DATA),
    Command.DELETE_SUBSCRIBER_DATA: (*OF_ALL, avps.USER_NAME, avps.DSR_FLAGS),
    Command.RESET: OF_ALL,
}
# What an AVP may have in it: an IMSI, its first digits, and a type of TS 29.272 clause 7.3.24.
VALUES = {
    avps.USER_NAME: re.compile("[0-9]{14,15}").fullmatch,
    avps.USER_ID: re.compile("[0-9]{1,15}").fullmatch,
    avps.CANCELLATION_TYPE: range(5).__contains__,
}
REMEMBERED_SECONDS = 240  # in which an order that comes again has the same number (RFC 6733 clause 3)
FULL = "the lines before it haven't been read yet"


class Orders:
    """Does what the HSS orders. `output` takes lines, and `registered` has the IMSIs that the HSS knows to be here."""

    def __init__(self, node, output, registered):
        self.node, self.output, self.registered = node, output, registered
        self.done = collections.OrderedDict()  # when each of the last orders was done, by who gave it and its number
        self.writing = {}  # by the same: who asked, once or again, for what isn't written yet

    def take(self, peer, message):
        """Does an order, or says why not."""
        refusal = self.refusal(message)
        if refusal is not None:
            peer.refuse(message, *refusal)
        elif message.header.command == Command.CANCEL_LOCATION:
            self.cancel(peer, message)
        elif message.header.command == Command.RESET:
            self.reset(peer, message)
        else:
            self.change_data(peer, message)

    def refusal(self, message):
        """Why a request can't be done: the result, words, and the AVP at fault."""
        command, asked = message.header.command, message.avps
        if message.header.application != S6A:
            return (Result.COMMAND_UNSUPPORTED if message.header.application == BASE else Result.APPLICATION_UNSUPPORTED,)
        if command not in REQUIRED:
            return (Result.COMMAND_UNSUPPORTED,)
        if asked.first(avps.DESTINATION_HOST, self.node.host).lower() != self.node.host.lower():
            return Result.UNABLE_TO_DELIVER, "this is %s, and relays nothing" % self.node.host
        if asked.first(avps.DESTINATION_REALM, self.node.realm).lower() != self.node.realm.lower():
            return Result.REALM_NOT_SERVED, "this is of the realm %s" % self.node.realm
        for avp in asked:
            if avp.definition is None and avp.is_mandatory:
                return Result.AVP_UNSUPPORTED, "AVP %d isn't known here" % avp.code, avps.unknown(avp)
        for definition in REQUIRED[command]:
            if asked.first(definition) is None:
                return Result.MISSING_AVP, "%s is missing" % definition.name, avps.example(definition)
        for definition, is_good in VALUES.items():
            for value in asked.every(definition):
                if not is_good(value):
                    return Result.INVALID_AVP_VALUE, "of %s" % definition.name, avps.written([(definition, value)])
        return None

    def answer(self, peer, message, result):
        """Answers an order by a Result-Code or by a code of 3GPP."""
        code = avps.RESULT_CODE, result
        if isinstance(result, Experimental):
            code = avps.EXPERIMENTAL_RESULT, [(avps.VENDOR_ID, avps.VENDOR_3GPP), (avps.EXPERIMENTAL_RESULT_CODE, result)]
        peer.answer(message, [s6a_application(), code, (avps.AUTH_SESSION_STATE, NO_STATE_MAINTAINED), *identity(self.node)])

    def tell(self, peer, message, lines):
        """Writes what an order means, and answers once it is written; what came before is only answered. Whether it is new."""
        key = message.avps.first(avps.ORIGIN_HOST), message.header.end
        self.forget(time.monotonic() - REMEMBERED_SECONDS)
        if key in self.done:
            self.answer(peer, message, Result.SUCCESS)
        elif key in self.writing:
            self.writing[key].append((peer, peer.link, message))
        elif self.output.is_full:
            peer.refuse(message, Result.TOO_BUSY, FULL)
        else:
            self.writing[key] = [(peer, peer.link, message)]
            self.output.put(lines, lambda: self.told(key))
            return True
        return False

    def told(self, key):
        """It is written. Who asked is answered on the connection that brought it."""
        self.done[key] = time.monotonic()
        for peer, link, message in self.writing.pop(key):
            if peer.link is link:
                self.answer(peer, message, Result.SUCCESS)

    def forget(self, before):
        """Forgets what was done before this time."""
        while self.done and next(iter(self.done.values())) < before:
            self.done.popitem(last=False)

    def cancel(self, peer, message):
        """Cancel-Location-Request: success, whether or not the phone is here."""
        imsi = message.avps.first(avps.USER_NAME)
        if self.tell(peer, message, answer(CANCEL, imsi)):
            self.registered.discard(imsi)

    def reset(self, peer, message):
        """Reset-Request: the HSS may have lost where phones are, all or those whose IMSIs begin so."""
        beginnings = message.avps.every(avps.USER_ID)
        self.tell(peer, message, "".join(answer(RESET, digits) for digits in beginnings) or RESET + "\n")

    def change_data(self, peer, message):
        """Insert-Subscriber-Data-Request, Delete-Subscriber-Data-Request: nothing of the HSS's data is kept here to be changed."""
        is_here = message.avps.first(avps.USER_NAME) in self.registered
        self.answer(peer, message, Result.UNABLE_TO_COMPLY if is_here else Experimental.USER_UNKNOWN)
