"""What an explanation says, taken apart.

It is no test itself.
"""

import re

# The headings of the reasons, and of what may come behind them.
REASONS, PROFILE = "Why no order can have these replies:", "By what OpenSearch documents:"
DAMAGE, RULE_OUT = "How much is broken:", "First rule out:"

# A headline that names an anomaly, with its line.
HEADLINE = re.compile(r"(?P<anomaly>[^:\n]+): .*, line (?P<line>\d+)( at [^)]*)?\)\.")


def headline(story):
    """The anomaly that an explanation names in its headline, and the line; nothing of a headline that names none."""
    found = HEADLINE.fullmatch(story.split("\n")[2])
    return (found["anomaly"], int(found["line"])) if found else None


# How paragraphs among the reasons begin that are none: what the first line names instead, and what may make the
# reasons look wrong.
BESIDE = ("The first line names ", "The reasons above need no line after ", "Was a line written late? ", "Did a conflict hide a write? ")


def reasons(story):
    """The paragraphs that say why no order can have the replies."""
    lines = story.split("\n")
    if REASONS not in lines:
        return ""
    begin = lines.index(REASONS)
    end = min((lines.index(it, begin) for it in (PROFILE, DAMAGE, RULE_OUT) if it in lines), default=len(lines))
    return "\n".join(it for it in lines[begin:end] if not it.startswith(BESIDE))


def lines_cited(text):
    """The lines of a history that a text of an explanation names."""
    found = re.finditer(r"\blines? (\d+)(?: to (\d+))?", text)
    return [int(it) for match in found for it in match.groups() if it]
