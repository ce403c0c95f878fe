"""Which words, numbers and lines that a user can meet tools/explain doesn't know. Used by tools/made.

They are read from the grammar: the table of the lines of a run, the notices, the causes, the statuses, the numbers of faults, the
commands and the lines of recipes.
"""
import re

import faults
from explanations import explanations
from faults import TOP
from highlight import CHOICES, commands, recipe_lines

CRATES = TOP / "crates"
# An example of each kind of word.
EXAMPLES = {"Name": "x", "Number": "1", "Inc": "1", "Open": "open", "Side": "host", "Lane": "0", "Offset": "0000", "Row": "00",
            "Escaped": "led", "Bound": "7.1", "Driver": "echo", "Switch": "on", "State": "offline", "Digits": "00000000",
            "Dotted": "2.0", "Trace": "text", "Bytes": "aa", "Service": "created"}
# An entry of the table of lines: its form, its event, and the words of its line.
FORM = re.compile(r"^ {12}\w+: \(Event::.*?\)\s*\[(\(.*?|\".*?)\];", re.M | re.S)
WORD = re.compile(r'"([^"]+)"|\((\w+)[^)]*\)')
# A line of a notice or of a report, in a definition.
NOTICE = re.compile(r"(?:notice_words [^=]*=|caller_line [^=]*=|line_of \()(.*?)∷ \[\]", re.S)
NOTICE_WORD = re.compile(r'codes "([^"]+)"|\b(Number|Name|Digits|Side|Lane)\b')
STATUS = re.compile(r"^status_number \S+ = (\d+)$", re.M)
FAULT = re.compile(r"^(?:\w*fault_number|number_of) .* = (?:Some )?(\d+)$", re.M)


def text(path):
    return (CRATES / path).read_text()


def lines_of_runs():
    """An example of each line of a run."""
    for words in FORM.findall(text("journal/src/table.rt")):
        yield " ".join(fixed or EXAMPLES[kind] for fixed, kind in WORD.findall(words))


def lines_of_notices():
    """An example of each notice and of each line of a report."""
    causes = re.findall(r'cause_text .* = codes "(\w+)"', text("journal/specs/Notices.antt"))
    for path in ("journal/specs/Notices.antt", "storm_run/specs/Storms.antt"):
        for words in NOTICE.findall(text(path)):
            line = " ".join(fixed or EXAMPLES[kind] for fixed, kind in NOTICE_WORD.findall(words))
            if line and line != "* refused 1":
                yield line
    yield from (f"* refused 1 {it}" for it in causes)
    for told in re.findall(r'codes "(\* [^"]+)"', text("rproc_chart/specs/Outputs.antt")):
        yield told + "1" if told.endswith(" ") else told


def numbers():
    """The statuses and the numbers of faults."""
    definitions = [path.read_text() for path in CRATES.glob("*/specs/**/*.antt")]
    for kind, pattern in (("status", STATUS), ("fault", FAULT)):
        yield from (f"{kind} {it}" for it in sorted({it for text in definitions for it in pattern.findall(text)}, key=int))


def met():
    """All that is to be known, in words."""
    lines = [*lines_of_runs(), *lines_of_notices()]
    words = {it for line in lines if not line.startswith("usage") for it in line.split() if re.fullmatch(r"[a-z][a-z-]+", it)}
    words -= {*EXAMPLES.values()} - {"host", "open", "created", "offline", "echo", "on"}
    return [*lines, *numbers(), *sorted(words | {*commands(), *recipe_lines(), *CHOICES})]


def is_told(words, entries):
    """Whether an explanation has each word of these that is no example."""
    found = explanations(words, entries)
    said = " ".join([head for head, _ in found] + [text for _, texts in found for _, text in texts])
    examples = {*EXAMPLES.values()}
    return bool(found) and all(it in said for it in words.split() if it not in examples and it not in ("*", "error"))


def unexplained():
    """What tools/explain doesn't know, or tells of something else."""
    entries = faults.entries()
    return [it for it in met() if not is_told(it, entries)]
