"""The rows of a chart: what a run's events and answers are, with their arrows and what stands at the margin."""
import collections
import functools
import itertools

from tools import progress, runs
from tools.charting.phones import Phones

MME = "MME"
PHONE = object()  # in the arrows and the notes of a row: the row's phone
MESSAGE, FAULT, STATE, NOTE, PAUSE = "message", "fault", "state", "note", "pause"

Arrow = collections.namedtuple("Arrow", "source target label")
# `line` is the number of the line of the trace that a row is of, `where` the same in words.
Row = collections.namedtuple("Row", "second kind arrows notes phone dropped line where", defaults=[False, None, None])

MOST_LISTED = 4  # associations of a list that are named


def association_text(ids):
    """An association by the ids that are given of it."""
    texts = ["%s id %d" % (whose, number) for whose, number in zip(("MME", "eNB"), ids) if number is not None]
    return " with ".join(texts) or "no id"


def listed_text(listed):
    """The associations that a RESET or its acknowledgement lists."""
    texts = [association_text(ids) for ids in listed[:MOST_LISTED]]
    texts += ["%d more" % (len(listed) - MOST_LISTED)] if len(listed) > MOST_LISTED else []
    return "(%s)" % ", ".join(texts)


def is_far(arrow):
    """Whether an arrow is between phone and station."""
    return arrow.source is PHONE or arrow.target is PHONE


@functools.lru_cache(1 << 14)
def arrows_of(station, label, carried, from_mme):
    """The arrow of a message between station and MME, and that of a message in it between phone and station."""
    near = Arrow(MME, station, label) if from_mme else Arrow(station, MME, label)
    if carried is None:
        return (near,)
    return (near, Arrow(station, PHONE, carried)) if from_mme else (Arrow(PHONE, station, carried), near)


OF_PHONE = (PHONE,)  # the notes of a message that is about a phone and carries none of its


def message_row(second, station, phone, content, from_mme, marks=()):
    """The row of a message: one arrow, or two where it carries a message of a phone; marks stand after the innermost name."""
    marked = "".join([" (%s)" % mark for mark in marks]) if marks else ""
    if content.nas is not None and phone is not None:
        arrows, notes = arrows_of(station, content.name, content.nas.name + marked, from_mme), ()
    else:
        arrows, notes = arrows_of(station, content.name + marked, None, from_mme), OF_PHONE if phone is not None else ()
    if content.said:
        notes += (content.said,)
    if content.listed is not None:
        notes += (listed_text(content.listed),)
    return Row(second, FAULT if content.fails else MESSAGE, arrows, notes, phone)


def of_message(told):
    """What an event's own message was, where it is told: the first that is said of it."""
    return next((telling for telling in told.tellings if telling.subject is None), None)


def heard_row(step, phones, told):
    """The row of a station's message, with why it did not do what it seems to."""
    heard, telling = runs.content(step.event.octets), told and of_message(told)
    mark = telling.mark() if telling else None
    row = message_row(step.second, step.event.station, phones.heard(step, heard), heard, False, [mark.value] if mark else ())
    if telling is None or telling.why is None:
        return row
    if any(answer.word == "refused" for _, answer in step.answers):
        return row._replace(kind=FAULT, dropped=telling.dropped)
    notes = tuple(note for note in row.notes if note != heard.said) if heard.fault else row.notes
    return row._replace(kind=FAULT, notes=with_reason(notes, telling.reason()), dropped=telling.dropped)


def with_reason(notes, reason):
    """The notes of a message with its reason after them."""
    if notes and isinstance(notes[-1], str):
        return *notes[:-1], notes[-1] + ";", reason
    return *notes, reason


NOTICES = {"data": "data waits for", "cancel": "subscription ends of"}


def event_row(step, phones, told):
    """The row of an event without its answers, or nothing."""
    event = step.event
    if event.word == "in":
        return heard_row(step, phones, told)
    if event.word == "up":
        return Row(step.second, MESSAGE, arrows_of(event.station, "connects", None, False), (), None)
    if event.word == "lost":
        return Row(step.second, FAULT, arrows_of(event.station, "is lost", None, False), (), None)
    if event.word in ("data", "cancel"):
        phone = phones.of_imsi(event.imsi) if event.imsi in phones.causes.slots else None
        text = "front begins anew" if event.is_anew else NOTICES[event.word]
        return Row(step.second, NOTE, (), (text, PHONE if phone else "IMSI " + event.imsi, *notice_notes(told, phone)), phone)
    return None


def notice_notes(told, phone):
    """Why nothing came of a notice for a phone."""
    return ["(%s)" % telling.reason() for telling in told.tellings if telling.why] if told and phone else []


def consequence_rows(step, told, phones):
    """What an event did to phones beside its message: they lose their connections, are given up, are forgotten."""
    if told is None or step.event.word in ("data", "cancel"):
        return
    for telling in told.tellings:
        if telling.why and telling.subject and telling.owner[:1] in ("s", "x"):
            phone = phones.of_owner(telling.owner)
            yield Row(telling.second, FAULT, (), (PHONE, "%s: %s" % (telling.role, telling.reason())), phone)


def answer_row(second, answer, phones, expected):
    """The row of an answer, marked where it is a repeat."""
    if answer.word == "out":
        said = runs.content(answer.octets)
        marks = ["%d of %d" % expected.repeat] if expected and expected.repeat else ()
        return message_row(second, answer.station, phones.told(answer, said), said, True, marks)
    if answer.word == "refused":
        return Row(second, FAULT, (), ("refused %d: %s" % (answer.fault, runs.REFUSALS.get(answer.fault, "?")),), None)
    phone = phones.of_imsi(answer.imsi)
    return Row(second, STATE, (), (PHONE, answer.states), phone)


EVENT, ANSWER = "line %d", "answer to line %d"  # how a row says which line it is of


def step_rows(step, told, phones):
    """The rows of an event and of what was sent for it, by their seconds."""
    first, line = event_row(step, phones, told), step.event.line
    rows = [at_line(first, line)] if first else []
    if told is None:
        if step.answers:
            rows += [at_line(answer_row(second, answer, phones, None), line, ANSWER) for second, answer in step.answers]
        return rows
    rows += [at_line(row, line) for row in consequence_rows(step, told, phones)]
    rows += [at_line(answer_row(each.second, each.answer, phones, each.expected), line, ANSWER) for each in told.answered]
    return sorted(rows, key=lambda row: row.second)


def at_line(row, line, words=EVENT):
    """A row with the line of the trace that it is of."""
    return Row(*row[:-2], line, words % line)


BLOCK = 256  # events that are placed at a time: quicker than one by one as each has its answers, and runs.content keeps as many


def rows_of(trace, steps, told=None):
    """The rows of a run, the phones in them by their last names; `told` is the story of it, where it is to be drawn."""
    phones, rows = Phones(trace), []
    pairs = progress.over("places event", zip(steps, told or itertools.repeat(None)), len(trace.events))
    while block := list(itertools.islice(pairs, BLOCK)):
        for step, each in block:
            rows += step_rows(step, each, phones)
    return [with_found_phone(row) for row in rows] if phones.is_one_another else rows


def with_pauses(rows, end, now=0):
    """The rows, and between them how many seconds pass, from this one on."""
    for row in rows:
        if row.second > now:
            yield pause(now, row.second)
            now = row.second
        yield row
    if end > now:
        yield pause(now, end)


def pause(before, after):
    return Row(after, PAUSE, (), ("%d s" % (after - before),), None)


def with_found_phone(row):
    """A row of a phone that turned out to be another, as that one's."""
    return row if row.phone is None or row.phone.same is None else row._replace(phone=row.phone.found())


def second_above(rows, place):
    """The second that is shown above a place of the rows."""
    return next((row.second for row in reversed(rows[max(0, place - 2):place]) if row.kind != PAUSE), None)
