"""What rproc answers where something is wrong, read from share/faults.txt. Used by tools/explain, tools/golden, tools/made."""
import re
from dataclasses import dataclass, field
from pathlib import Path

TOP = Path(__file__).resolve().parent.parent
SOURCE = TOP / "share/faults.txt"


@dataclass
class Entry:
    """One answer: its key in words, the forms of its line, and what it means."""
    key: list
    lines: list = field(default_factory=list)
    by: str = ""
    where: str = ""
    state: list = field(default_factory=list)
    means: str = ""
    do: str = ""

    def meaning(self):
        """What it means, where it is this of several causes."""
        return f"{self.where[:1].upper()}{self.where[1:]}: {self.means}" if self.where else self.means

    def is_refusal(self):
        """Whether a line of a transcript with this answer says that a command was refused."""
        return self.key[0] in ("fault", "answer")


@dataclass
class Section:
    title: str
    columns: list = field(default_factory=list)
    texts: list = field(default_factory=list)
    entries: list = field(default_factory=list)


def blocks(text):
    """The blocks of the source, each as a list of keys and texts."""
    lines = [it for it in text.splitlines() if not it.startswith("#")]
    for block in re.split(r"\n\s*\n", "\n".join(lines)):
        if block.strip():
            yield [tuple(it.split(": ", 1)) for it in block.strip().splitlines()]


def entry_of(block):
    entry = Entry(block[0][1].split())
    for key, text in block[1:]:
        if key == "line":
            entry.lines.append(text)
        elif key == "state":
            entry.state = text.split()
        elif key in ("by", "where", "means", "do"):
            setattr(entry, key, text)
        else:
            raise ValueError(f"{SOURCE}: no such key: {key}")
    return entry


def read():
    """The sections of the source. The first is the page itself, without entries."""
    sections = []
    for block in blocks(SOURCE.read_text()):
        (kind, head), rest = block[0], block[1:]
        if kind == "entry":
            sections[-1].entries.append(entry_of(block))
            continue
        columns = [it.split(" | ") for key, it in rest if key == "columns"]
        sections.append(Section(head, columns[0] if columns else [], [it for key, it in rest if key == "text"]))
    return sections


def entries():
    return [it for section in read() for it in section.entries]


def shown(lines):
    return ", ".join(f"`{it}`" for it in lines)


def cell(column, entry):
    """The cell of an entry in a column of the page."""
    texts = {"Status": entry.key[1], "Number": entry.key[1], "Cause": f"`{entry.key[1]}`", "Finding": f"`{entry.key[1]}`",
             "Line": shown(entry.lines), "Written last": shown(entry.lines), "Answered by": entry.by,
             "Means": entry.meaning(), "What to do": entry.do}
    return texts[column].replace("|", "\\|")


def page():
    """docs/FAULTS.md."""
    (head, *sections), made = read(), []
    made += [f"# {head.title}", *head.texts]
    for it in sections:
        if it.entries:
            rows = [f"| {' | '.join(cell(column, entry) for column in it.columns)} |" for entry in it.entries]
            table = [f"| {' | '.join(it.columns)} |", "|" + "---|" * len(it.columns), *rows]
            made += [f"## {it.title}", *it.texts, "\n".join(table)]
    return ("\n\n".join(made) + "\n").encode()
