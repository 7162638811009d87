"""How much of anything the front takes, and how long it waits."""
import os

from tools import runs

# By TCP: seconds of rest until a connection is probed, between two probes, and until one that answers nothing is over.
PROBE_AFTER, PROBE_APART, VANISHED = 5, 5, 20
LENGTH_OCTETS = 2  # before each message by TCP
LONGEST_MESSAGE = (runs.LONGEST_LINE - len("in %d " % (runs.STATIONS - 1))) // 2  # octets, so that its line is one of a trace
PIECE = 1 << 16  # octets of one read of a station
MME_PIECE = 1 << 18  # octets of one read of the MME's answers
PATIENCE = 10  # seconds for a message that has begun
SETUP_SECONDS = 10  # from the connection to S1 SETUP RESPONSE
MOST_WAITING = 1 << 20  # octets that wait for a station to read
RATE = 2000  # messages a second of a station
OCTETS = 512  # octets a second of a station for each message a second; messages of phones have under 200 each
CONNECTION_RATE = 100  # connections a second
PER_ADDRESS = 32  # connections of one address at a time
MOST_DELAY = 0.25  # seconds that a flood of one station delays another's message, at the most; measured in tests/tools

TURN_MESSAGES = 512  # messages of all stations that one turn gives the MME
TURN_OCTETS = 1 << 18  # octets of them, after which no other station has its turn
IN_FLIGHT = 2  # turns whose answers are still due, beyond which no station has its turn

LIBRARY_SECONDS = 0.01  # that an MME in this process plays lines in a turn
LIBRARY_OCTETS = 1 << 12  # of lines that one call of the library plays, but for a longer line
PLAYED_OCTETS = 1 << 16  # the same where a log alone is played, and octets of one read of it
FIRST_SECONDS = 30  # for the MME to take the head and to answer
ANSWER_SECONDS = 10  # without a word of the MME while an answer is due
LAST_SECONDS = 5  # for it to end
LOCK_SECONDS, LOCK_APART = 5, 0.02  # for the children of a front that is gone to leave its log, and between two looks
SENDING_SECONDS = 1  # for what waits to be sent at the end, and for an MME to end by a signal

FEW_VECTORS, NEVER_FEW = 3, -1  # left of a phone, of which the front says so; where a source supplies more, it doesn't
MOST_USED = 0.75  # part of the segments of a series, of which the front says so
SEGMENT_SIZE, SEGMENTS = 64, 16  # MiB of a segment of the log, and how many are kept of each of its two series
FULL_SECONDS = 60  # that a full disk may keep the stations waiting
SETTLED_SECONDS, SETTLED_OCTETS = 1, 1 << 20  # what counts is written after so long, or so much

# Of a log in a store: seconds for an answer of one of its members, for one with many turns, until another is asked after a fault,
# and for the store to be there at the start.
STORE_CALL_SECONDS, STORE_PAGE_SECONDS, STORE_REST, STORE_SECONDS = 1, 3, 0.05, 60
# Seconds between two reads of a standby, and where the first found turns; seconds of silence after which it leads, and seconds
# without a commit after which a leader ends.
READING_SECONDS, READING_SOON, SILENCE_SECONDS, UNCOMMITTED_SECONDS = 0.02, 0.005, 3, 5
TURNS_READ = 200  # turns that a standby reads at once
STORED_OCTETS = 1 << 18  # of a turn; etcd takes 1.5 MiB at once
# Of a store that fills: seconds between two looks, the parts of its quota of which the front says so, in use and of its file, and
# seconds until a standby tries again to lead where the quota is reached.
ROOM_SECONDS, FULLEST, LARGEST, FULL_REST = 10, 0.5, 0.9, 1
# Of snapshots there: octets of a part, how many times as long as one took its maker rests, seconds for an answer, and until it gives
# up; turns that are removed at once, and parts that are read at once.
PART_OCTETS, PART_REST, PART_SECONDS, DEPOSIT_SECONDS, TURNS_REMOVED, PARTS_READ = 1 << 16, 19, 5, 30, 1000, 16
HANGING_SECONDS = 10  # without a turn of the loop, after which a front with a store ends

LONGEST_ASKED = 256  # octets of a line of the control socket
# Octets of the lines that `give` has after its own; how many of the lines are given in a turn, and the octets and seconds of a step of looking at
# them.
LONGEST_ADDED, ADDED_LINES, ADDED_OCTETS, ADDING_SECONDS = 1 << 26, 100, 1 << 14, 0.005
MOST_SUBSCRIBERS, MOST_UNSPENT = 32768, 64  # that an MME has, and vectors of each
# Of a source of vectors: those that a phone has unspent before it is asked, and after; those that one who waits is asked for;
# requests under way for those who don't wait.
LEAST_STOCK, FULL_STOCK, AT_ONCE, MOST_STOCKING = 3, 5, 2, 8
# Octets of a line that it tells, of one that it says, and of a read; lines that it says a second; lines that aren't taken in a row.
LONGEST_SUPPLIED, LONGEST_SAID, SOURCE_PIECE, SOURCE_FAULTS, MOST_WRONG = 256, 1000, 1 << 13, 20, 100
# Seconds of rest after its end, at first and at most, and where somebody waits; ends at a request, after which it isn't told that
# again; seconds that it may take for an answer, and until it is asked again.
SOURCE_PAUSES, SHORT_PAUSE, MOST_ENDS, SUPPLY_SECONDS, LATER_SECONDS = (0.1, 30), 0.5, 3, 10, 30
# Of what it is told of phones and orders: words under way, registrations that are ended in a second, orders of IMSIs that nobody
# has in a second, and beginnings of IMSIs of which it orders `reset`.
MOST_SAYING, CANCELS, SOURCE_ORDERS, MOST_RESETS = 500, 100, 1000, 1000
# Ticks after which a phone's states are looked at: each procedure has ended by then; its mobile reachable timer ends, of four
# minutes more than T3412 (TS 24.301 clause 5.3.5); and from then on while it is idle.
DOUBT_TICKS, REACHABLE_TICKS, IDLE_TICKS = 35, 3480, 60
HELD_SECONDS, HELD_OCTETS = 2, 1 << 16  # that a message is held for vectors, and of all that are held of a station
MOST_ASKING = 16  # connections to the control socket at a time
ASKING_SECONDS = 60  # for one of them to say a whole line, and to read its answer
ANSWERED_SECONDS = 125  # for the front to answer one who asks
MOST_TOLD = 1 << 24  # octets that wait for one who asks, here or for the page, to read
MOST_FOLLOWED = 1 << 22  # octets of tunnels that wait for a follower to read; beyond them it is cut off
MOST_BROWSING, BROWSING_SECONDS, LONGEST_REQUEST = 32, 10, 8192  # connections for metrics and the page, each one's time and octets
GUEST_RATE = 100  # connections a second of those who ask, at the control socket and for the page each
ASIDE_SECONDS, ASIDE_REST = 0.005, 0.001  # after which a piece of work is done though messages wait, and until it is tried again
FRESH_SECONDS = 1  # that states and pages are told again
# Of what gateways tell: octets, letters of a name, reasons, and phones that the metrics have; and how long they are waited for.
LONGEST_TRAFFIC, LONGEST_NAME, MOST_REASONS_TOLD, MOST_METERED, TRAFFIC_SECONDS = 1 << 18, 80, 100, 1000, 1
# Of the reasons that the page has: the subscribers of whom they are found, and the vectors; the lines and octets that wait for
# that, and how long a piece of it takes; how many are kept and how long a fact in one is; and after how many events all is
# forgotten that is past but for so many lines of a phone.
MOST_TOLD_OF, MOST_TOLD_BY, MOST_UNTOLD, MOST_UNTOLD_OCTETS, TELLING_SECONDS = 1000, 20000, 20000, 1 << 22, 0.001
MOST_REASONS, LONGEST_FACT, FORGETS_AFTER, MOST_LINES_OF_PHONE = 2000, 300, 5000, 100

# Of snapshots: the minutes and MiB of what counts after which the next is made, octets that one by time is made for at the least,
# seconds for which the MME waits for one, until the next may begin, and after a fault, and how many times as long as it took.
SNAPSHOT_MINUTES, SNAPSHOT_MIB, SNAPSHOT_LEAST = 10, 8, 4096
SNAPSHOT_HOLD, SNAPSHOT_REST, SNAPSHOT_AGAIN, SNAPSHOT_SHARE = 0.5, 1, 60, 10

PAGE = os.sysconf("SC_PAGE_SIZE")
WORDS_SAID = 10000  # lines that wait for standard error to be read; further ones are counted and left out

LIMITS = """limits of a station:
  a message of %d octets, since a line of a trace has at most %d; a longer one ends the connection
  %d messages a second (--rate) and %d times as many octets, with a second's worth at once; what comes faster waits in the
  connection, and none is lost
  %d s for a message that has begun, and %d s (--setup-seconds) from the connection to the answer to S1 SETUP; otherwise the
  connection ends
  %d octets that wait for the station to read them; beyond them the connection ends
  %d octets that are held for vectors (--source); beyond them messages go as they are
  %d connections from one address (--per-address), only from addresses of --allow if it is given; a further one is closed at once
Stations take turns, so a flood from one delays another's message by less than %g s. There are at most %d stations; a further
connection is closed at once. A faulty connection ends, and no other with it.""" % (
    LONGEST_MESSAGE, runs.LONGEST_LINE, RATE, OCTETS, PATIENCE, SETUP_SECONDS, MOST_WAITING, HELD_OCTETS,
    PER_ADDRESS, MOST_DELAY, runs.STATIONS)
