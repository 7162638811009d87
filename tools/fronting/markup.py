"""Texts, links and tables in HTML."""
import html

from tools import versions

LONG = 40  # letters of a cell that is more than a line where there is no room


class Markup(str):
    """What is HTML already, of a number or not."""

    is_number = False


def shown(text):
    """A text that others wrote, in HTML."""
    return text if isinstance(text, Markup) else html.escape(versions.visible(str(text)))


def linked(path, text):
    """A text that leads to another page of the front."""
    return Markup('<a href="%s">%s</a>' % (html.escape(path), shown(text)))


def marked(kind, text):
    """A text that is shown in a manner of its own."""
    made = Markup('<span class="%s">%s</span>' % (kind, shown(text)))
    made.is_number = isinstance(text, int)
    return made


def phone(imsi):
    """An IMSI, which leads to its phone's own page."""
    return linked("/?imsi=%s" % imsi, imsi)


def table(heads, rows):
    """A table in HTML, which a narrow screen scrolls by itself; a number stands at the right."""
    def cell(tag, value, is_number):
        kind = "number" if is_number else "long" if len(str(value)) > LONG and not isinstance(value, Markup) else ""
        return '<%s%s>%s</%s>' % (tag, ' class="%s"' % kind if kind else "", shown(value), tag)
    numbers = [isinstance(value, (int, float)) or getattr(value, "is_number", False) for value in rows[0]]
    lines = ["<tr>" + "".join(cell("th", head, is_number) for head, is_number in zip(heads, numbers)) + "</tr>"]
    lines += ["<tr>" + "".join(cell("td", value, is_number) for value, is_number in zip(row, numbers)) + "</tr>" for row in rows]
    return '<div class="wide"><table>\n%s\n</table></div>' % "\n".join(lines)
