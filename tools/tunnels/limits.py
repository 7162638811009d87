"""How much of anything the gateway takes, and how long it waits."""

MOST_OF_PHONE = 16  # packets that wait for a phone
WAITING_SECONDS, WAITING_OCTETS = 15.0, 1 << 22  # for an idle phone to come, and of all phones
# Packets of a phone that wait which a station sends before its tunnel is known, the seconds, and the octets of all phones.
MOST_EARLY, EARLY_SECONDS, EARLY_OCTETS = 256, 1.0, 1 << 22
LATE_SECONDS = 1.0  # after a path switch, in which the old station still may send what was on its way
AGAIN_SECONDS = 5.0  # until a phone that doesn't come is paged again
SWEEP_SECONDS = 0.25  # between two looks at what waits too long
ASKED_A_SECOND = 200  # phones that the front is asked about
ASKED_AT_ONCE = 32  # of them that wait for an answer
MOST_ASKED = 4096  # of them that wait for their turn
ANSWER_SECONDS = 10.0  # for the front to answer
ERRORS_A_SECOND = 100  # error indications that are sent
MOST_STATIONS = 256  # addresses of stations that have tunnels
DATAGRAMS, PACKETS = 64, 64  # of a socket, and of idle phones, that are looked at in a turn
RETRY_SECONDS = 0.2  # until the front is tried again
REFUSED_SECONDS = 60.0  # until a front that takes no counters is told some again
LONGEST_LINE = 256  # octets of a line of the front
FRONT_PIECE = 1 << 16  # octets of one read of the front
LONGEST_WANTED = 1 << 14  # octets of a line by which the front asks for phones' counters
FRESH_SECONDS = 1.0  # that the kernel's counters are told again
MOST_METERED = 1000  # phones that the metrics have by themselves
