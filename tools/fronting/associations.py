"""Which associations a station may have, by what it said: so that a message of one that nobody has is known to change nothing.

An association at a station begins with an INITIAL UE MESSAGE or a PATH SWITCH REQUEST of that station, and has the eNB UE S1AP ID
that stands there. A RESET of a part means those that have each id which an item gives (docs/DECISIONS.md). So an item with an eNB
UE S1AP ID under which the station never began one means nobody, and a message with such an id is nobody's. What isn't known for
sure may be somebody's.
"""
from tools import runs, s1ap

RESETS, ERRORS = bytes([s1ap.RESET]), bytes([s1ap.ERROR])  # the second octet of a message is its procedure
BEGIN_ONE = bytes([s1ap.INITIAL_UE]), bytes([s1ap.PATH_SWITCH])
SILENT = (s1ap.RESET, s1ap.SUCCESSFUL), (s1ap.ERROR, s1ap.INITIATING)
MOST = 1 << 16  # eNB UE S1AP IDs that are kept of a station


def is_silent(octets):
    """Whether a message is a station's RESET ACKNOWLEDGE or ERROR INDICATION, which have no answer and change nothing."""
    message = s1ap.read(octets)
    return not message.fault and (message.code, message.outcome) in SILENT


class Associations:
    """The eNB UE S1AP IDs under which a station may have associations, since it connected."""

    def __init__(self):
        self.enb_ids, self.is_known = set(), True

    def note(self, octets):
        """A message that may begin an association."""
        enb_id = s1ap.number_in(s1ap.element(octets, s1ap.ENB_ID))
        self.is_known = self.is_known and enb_id is not None and len(self.enb_ids) < MOST
        if self.is_known:
            self.enb_ids.add(enb_id)

    def is_reset_of_nobody(self, octets, slots):
        """Whether a message is a RESET of associations that nobody has, where there are so many subscribers."""
        message = s1ap.read(octets)
        if not self.is_known or message.fault or (message.code, message.outcome) != (s1ap.RESET, s1ap.INITIATING):
            return False
        items = s1ap.listed(message)
        return items is not None and not any(self.may_mean_somebody(*item, slots) for item in items)

    def is_nobodys(self, octets):
        """Whether a message that begins no association has an eNB UE S1AP ID under which there is none. That of both ids in one
        element doesn't count: no message of a station names an association so."""
        message = s1ap.read(octets)
        enb_id = s1ap.number_in(message.elements.get(s1ap.ENB_ID))
        return (self.is_known and octets[1:2] not in BEGIN_ONE and not message.fault and enb_id is not None
                and enb_id not in self.enb_ids)

    def may_mean_somebody(self, mme_id, enb_id, slots):
        """Whether an item with these ids may mean an association, nothing for an id that isn't given."""
        if enb_id is not None:
            return enb_id in self.enb_ids
        if mme_id is None or not self.enb_ids:
            return False
        return mme_id >= runs.FIRST_STRANGER or mme_id >> runs.SLOT_BITS < slots
