"""The phones of a run, and which of them each message is of."""
from tools import runs, s1ap


class Phone:
    """A phone of the run; where it turns out to be another, `same` is that one."""

    def __init__(self, station, enb_id):
        self.station, self.enb_id, self.imsi, self.same, self.tag = station, enb_id, None, None, None

    def found(self):
        return self.same.found() if self.same else self

    def name(self):
        return "IMSI " + self.imsi if self.imsi else "UE %s at station %s" % (self.enb_id, self.station)


class Phones:
    """Finds the phone of each message, by what it says it is, by ids, and by whom the MME takes it for. Where a log is read from a
    snapshot on, that tells whose the associations are, and were."""

    def __init__(self, trace):
        self.imsis, self.causes = trace.imsis, runs.Causes(trace.imsis)
        self.by_imsi, self.by_owner, self.by_tmsi, self.by_mme_id, self.by_radio = {}, {}, {}, {}, {}
        self.is_one_another = False  # whether a phone turned out to be another
        self.remembered = trace.rest and trace.rest.remembered
        for slot, mme_id, station, enb_id in self.remembered.connections() if self.remembered else ():
            self.by_mme_id[mme_id] = self.by_radio[station, enb_id] = self.of_slot(slot)

    def of_imsi(self, imsi):
        if imsi not in self.by_imsi:
            self.by_imsi[imsi] = Phone(None, None)
            self.by_imsi[imsi].imsi = imsi
        return self.by_imsi[imsi].found()

    def of_slot(self, slot):
        return self.of_imsi(self.imsis[slot]) if slot is not None and slot < len(self.imsis) else None

    def known_by(self, phone, imsi):
        """The phone, now that its IMSI is known."""
        phone = phone.found()
        if phone.imsi is None and imsi not in self.by_imsi:
            phone.imsi, self.by_imsi[imsi] = imsi, phone
        elif phone.imsi is None:
            phone.same, self.is_one_another = self.of_imsi(imsi), True
        return self.of_imsi(imsi)

    def keep(self, phone, station, content):
        """Remembers the phone by the ids of a message."""
        if content.mme_id is not None:
            self.by_mme_id[content.mme_id] = phone
        if content.enb_id is not None:
            self.by_radio[station, content.enb_id] = phone
        return phone

    def before(self, station, heard, tmsi):
        """The phone that a station has spoken for like this before, or nothing: by its M-TMSI in a first message, by the MME's id
        where it comes from another station, else by the station's id."""
        if heard.code == s1ap.INITIAL_UE:
            phone = self.by_tmsi.get(tmsi)
        elif heard.code == s1ap.PATH_SWITCH:
            phone = self.by_mme_id.get(heard.mme_id)
        else:
            phone = self.by_radio.get((station, heard.enb_id))
        return phone.found() if phone else None

    def named(self, step, heard, imsi):
        """The phone by its IMSI, or nothing: whom the MME takes it for, by an answer to it, else who it says it is."""
        owners = [answer.owner for _, answer in step.answers
                  if answer.word == "out" and runs.content(answer.octets).enb_id == heard.enb_id]
        slots = [int(owner[1:]) for owner in owners if owner[0] == "s"]
        if slots:
            return self.of_slot(slots[0])
        if imsi is not None:
            return self.of_imsi(imsi)
        if owners:
            return None
        return self.of_slot(self.causes.slot_of(heard) if heard.mme_id is None else self.slot_before(heard.mme_id))

    def slot_before(self, mme_id):
        """The slot whose association ended before a snapshot, or nothing."""
        return self.remembered.slot_before(mme_id) if self.remembered else None

    def heard(self, step, heard):
        """The phone of a station's message, or nothing where it is of none."""
        if heard.mme_id is None and heard.enb_id is None:
            return None
        imsi, tmsi = heard.identity
        phone = self.before(step.event.station, heard, tmsi)
        if phone is None or not phone.imsi:
            named = self.named(step, heard, imsi)
            if phone and named:
                phone = self.known_by(phone, named.imsi)
            else:
                phone = named or phone or Phone(step.event.station, heard.enb_id)
        if tmsi is not None:
            self.by_tmsi[tmsi] = phone
        return self.keep(phone, step.event.station, heard)

    def of_owner(self, owner):
        """The phone of a subscriber, or of a stranger by where it is."""
        if owner[0] == "s":
            return self.of_slot(int(owner[1:]))
        station, enb_id = map(int, owner[1:].split("."))
        return self.by_radio.get((station, enb_id), Phone(station, enb_id)).found()

    def told(self, answer, said):
        """The phone of an answer, or nothing where it is for a station."""
        owner = answer.owner
        if owner[0] == "e":
            return None
        if owner[0] == "s":
            if owner not in self.by_owner:
                self.by_owner[owner] = self.of_slot(int(owner[1:]))
            phone = self.by_owner[owner]
        else:
            station, enb_id = map(int, owner[1:].split("."))
            answered = self.by_radio.get((answer.station, said.enb_id))
            phone = answered or self.by_radio.get((station, enb_id)) or Phone(station, enb_id)
        return self.keep(phone.found(), answer.station, said) if phone else None
