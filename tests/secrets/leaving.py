"""The ways in which phones leave: each ends a challenge or a security context."""
from soizkadur.standards import Station, lte
from tools.eps import timers


class Scene:
    """The stations, and the eNB UE S1AP IDs that they give."""

    def __init__(self, trace):
        self.trace, self.given = trace, 0
        self.here, self.there, self.apart = (Station(number, identity=number + 1) for number in range(3))

    def set_up(self):
        for station in self.here, self.there, self.apart:
            self.trace.set_up(station)

    def next(self):
        """The next of these ids."""
        self.given += 1
        return self.given

    def challenges(self, phone, station=None):
        phone.asks_to_attach(station or self.here, self.next())

    def attaches(self, phone, station=None):
        phone.attaches(station or self.here, self.next())

    def lives(self, phone):
        """A phone attaches, is released, asks for service, changes stations, and updates its area from there and from idle."""
        self.attaches(phone)
        phone.is_released()
        phone.asks_for_service(self.here, self.next())
        phone.switches_path(self.there, self.next())
        phone.switches_path(self.here, self.next())
        phone.updates()
        phone.completes_update(False)
        phone.is_released()
        phone.updates_from_idle(self.there, self.next())
        phone.completes_update(True)
        phone.asks_for_service(self.here, self.next())

    def detached(self, phone):
        self.lives(phone)
        phone.detaches()

    def detached_from_idle(self, phone):
        self.attaches(phone)
        phone.is_released()
        phone.detaches_from_idle(self.there, self.next())

    def detached_at_last(self, phone):
        """The station doesn't complete the release, so that nothing more is heard of the phone."""
        self.lives(phone)
        phone.sends(phone.protected_up(phone.asks_to_detach()))
        phone.owed_nas(phone.protected_down(lte.DETACH_ACCEPT))
        phone.owed(lte.release_command(phone.m, phone.b, lte.DETACHED))
        phone.is_gone()

    def switched_off(self, phone):
        self.attaches(phone)
        phone.is_switched_off()

    def detached_while_challenged(self, phone):
        self.challenges(phone)
        phone.detaches_plainly()

    def released_while_challenged(self, phone):
        self.challenges(phone)
        phone.is_released()

    def rejected(self, phone):
        self.challenges(phone)
        phone.gives_any_res()

    def refused_by_the_phone(self, phone):
        self.challenges(phone)
        phone.refuses_the_network()

    def silent_when_challenged(self, phone):
        self.challenges(phone)
        phone.holds_back_response()

    def silent_in_security_mode(self, phone):
        self.challenges(phone)
        phone.authenticates()
        phone.holds_back_security()

    def silent_when_accepted(self, phone):
        self.challenges(phone)
        phone.authenticates()
        phone.completes_security()
        phone.holds_back_completion()

    def silent_about_information(self, phone):
        phone.asks_to_attach(self.here, self.next(), information=True)
        phone.authenticates()
        phone.completes_security()
        phone.holds_back_information()

    def rejecting_security(self, phone):
        self.challenges(phone)
        phone.authenticates()
        phone.rejects_security()

    def out_of_step(self, phone):
        self.challenges(phone)
        phone.is_out_of_step()
        for step in phone.authenticates, phone.completes_security, phone.context_is_set_up, phone.completes_attach, phone.detaches:
            step()

    def challenged_anew(self, phone):
        self.challenges(phone)
        self.challenges(phone, self.there)
        phone.gives_any_res()

    def secured_anew(self, phone):
        self.challenges(phone)
        phone.authenticates()
        self.challenges(phone, self.there)
        phone.gives_any_res()

    def attached_anew(self, phone):
        self.lives(phone)
        self.attaches(phone, self.there)
        phone.detaches()

    def without_a_vector(self, phone):
        self.lives(phone)
        phone.asks_without_vector(self.there, self.next())

    def refused_anew(self, phone):
        self.attaches(phone)
        phone.asks_for_ipv6(self.there, self.next())

    def cancelled(self, phone):
        self.lives(phone)
        phone.is_cancelled()

    def silent_when_cancelled(self, phone):
        self.attaches(phone)
        phone.holds_back_detach_accept()

    def cancelled_while_idle(self, phone):
        self.attaches(phone)
        phone.is_released()
        self.trace.say("cancel " + phone.imsi)

    def cancelled_while_challenged(self, phone):
        self.challenges(phone)
        phone.is_cancelled_unfinished()

    def cancelled_in_security_mode(self, phone):
        self.challenges(phone)
        phone.authenticates()
        phone.is_cancelled_unfinished()

    def unreachable(self, *several):
        """All of them at one tick."""
        for phone in several:
            self.lives(phone)
            phone.is_released()
        self.trace.say("tick %d" % timers.REACHABLE.seconds)

    def with_the_station(self, *several):
        """The connection to their station is lost while one is challenged, one in security mode, and one accepted."""
        for phone in several:
            self.challenges(phone, self.there)
        for phone in several[1:]:
            phone.authenticates()
        several[2].completes_security()
        self.trace.say("lost %d" % self.there.number)
        self.trace.set_up(self.there)
        for phone in several:
            phone.is_gone()

    def reset_alone(self, phone):
        """The station resets the phone's association in security mode."""
        self.challenges(phone)
        phone.authenticates()
        self.trace.set_back(self.here, (phone.m, phone.b))
        phone.is_gone()

    def reset(self, *several):
        """The station resets its whole interface at the same places."""
        for phone in several:
            self.challenges(phone, self.there)
        for phone in several[1:]:
            phone.authenticates()
        several[2].completes_security()
        self.trace.set_back(self.there)
        for phone in several:
            phone.is_gone()


class SavingScene(Scene):
    """A scene whose MME is saved once a phone is challenged, and once one has attached."""

    def challenges(self, phone, station=None):
        super().challenges(phone, station)
        self.trace.saves()

    def attaches(self, phone, station=None):
        super().attaches(phone, station)
        self.trace.saves()


# The ways of leaving, each with how many vectors each of its phones is given.
WAYS = {
    "detached": [1], "detached from idle": [2], "detached at last": [2], "detached while challenged": [2], "switched off": [1],
    "released while challenged": [1], "rejected": [5], "refused by the phone": [1], "silent when challenged": [2],
    "silent in security mode": [1], "silent when accepted": [2], "silent about information": [1], "silent when cancelled": [1],
    "rejecting security": [2], "out of step": [5], "challenged anew": [2], "secured anew": [2], "attached anew": [9],
    "without a vector": [1], "refused anew": [2], "cancelled": [2], "cancelled while idle": [1], "cancelled while challenged": [1],
    "cancelled in security mode": [2], "unreachable": [1, 2, 5], "with the station": [1, 2, 5], "reset alone": [1],
    "reset": [2, 1, 1],
}
