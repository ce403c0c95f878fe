"""What a word, a number or a line means, from share/faults.txt and the tables of the pages. Used by tools/explain and tools/made."""
import re
from dataclasses import dataclass
from functools import lru_cache

import faults
from faults import TOP

# The pages whose tables explain lines and words, in the order in which they are asked.
PAGES = ("TRANSCRIPT.md", "CHART.md", "SCRIPTS.md", "GLOSSARY.md")
# A word of a list of words.
ITEM = re.compile(r"- \*\*(.+?)\*\*: (.*)")
CAPITALS = re.compile(r"[A-Z]+(?:\.[A-Z]+)?")
CODE = re.compile(r"`([^`]+)`")
# A line that has a fault's number, in a transcript or a report.
FAULT = re.compile(r"(?:\S+ )?(worker )?fault (\d+)(?: \d+)?")


@dataclass
class Row:
    """A row of a table of a page."""
    titles: list
    cells: list

    def forms(self):
        """The forms of a line in the first column, or its words."""
        return CODE.findall(self.cells[0]) or [self.cells[0]]


def plain(text):
    """A cell as text, its links as paths."""
    return re.sub(r"\[([^\]]*)\]\([^)]*\)", r"docs/\1", text).replace("`", "")


@lru_cache
def rows(page):
    """The rows of the tables of a page, and its lists of words; none where it isn't there."""
    path, titles, found = TOP / "docs" / page, [], []
    lines = path.read_text().splitlines() if path.exists() else []
    for at, line in enumerate(lines):
        if item := ITEM.fullmatch(line):
            found.append(Row(["", "What it is"], [item[1], item[2]]))
        if not line.startswith("|") or line.startswith("|---"):
            continue
        cells = [it.strip().replace("\\|", "|") for it in re.split(r"(?<!\\)\|", line[1:-1])]
        if lines[at + 1:at + 2] and lines[at + 1].startswith("|---"):
            titles = cells
        else:
            found.append(Row(titles, cells))
    return found


def fits(form, line):
    """How many words of a form stand in a line, where it has this form: a word in capitals is any word, and `..` the rest. Else 0."""
    wanted, words = form.split(), line.split()
    if wanted[-1:] == [".."]:
        wanted = wanted[:-1]
        words = words[:len(wanted)]
    if len(wanted) != len(words):
        return 0
    literal = [it for it in zip(wanted, words) if not CAPITALS.fullmatch(it[0])]
    return len(literal) if all(one == other for one, other in literal) else 0


def is_near(form, line):
    """Whether a line has the words of a form but for its last or one more: as `X driver NAME echo` for `X driver NAME sink`."""
    wanted, words = form.split(), line.split()
    return len(wanted) > 2 and abs(len(wanted) - len(words)) <= 1 and bool(fits(" ".join(wanted[:-1]), " ".join(words[:len(wanted) - 1])))


def best(items, forms_of, line):
    """The items with the form that fits a line by the most words."""
    scores = [(max((fits(form, line) for form in forms_of(it)), default=0), it) for it in items]
    most = max((score for score, _ in scores), default=0)
    return [it for score, it in scores if score == most] if most else []


def of_entries(entries):
    """Entries as they are shown, those of one line below one head."""
    made = []
    for it in entries:
        head = plain(", ".join(it.lines)) if it.lines else " ".join(it.key[:2])
        texts = [("where", it.where), ("answered by", it.by), ("means", it.means), ("what to do", it.do)]
        made.append((head, [(title, plain(text)) for title, text in texts if text]))
    return made


def of_rows(found):
    return [(plain(it.cells[0]), [(title.lower(), plain(cell)) for title, cell in zip(it.titles[1:], it.cells[1:]) if cell])
            for it in found]


def of_key(entries, kind, word):
    return [it for it in entries if it.key[0] == kind and it.key[1] == word]


def of_number(entries, number):
    """A bare number: the status and the fault, told apart by their heads."""
    return [(f"{kind} {number}" if kind == "status" else head, texts)
            for kind in ("status", "fault") for head, texts in of_entries(of_key(entries, kind, number))]


def of_rule(rule):
    """A rule of audits, from its page."""
    return [(f"audit broken: rule {rule}", texts) for _, texts in of_rows([it for it in rows("AUDIT.md") if it.titles[0] == "Rule" and it.cells[0] == rule])]


def of_line(entries, line):
    """A line of a transcript, a report or a notice."""
    if found := best(entries, lambda it: it.lines, line):
        return of_entries(found)
    # The lines of a table stand in a report of `check` without the name of a core.
    for asked in (line, f"X {line}"):
        for page in PAGES:
            every = rows(page)
            if found := best(every, Row.forms, asked) or [it for it in every if any(is_near(form, asked) for form in it.forms())][:1]:
                return of_rows(found)
    return []


def of_word(entries, word):
    """A word by itself: an answer, a word of a line or a command, a word of the glossary."""
    if found := [it for it in entries if word in it.key[1:2]]:
        return of_entries(found)
    every = [it for page in PAGES for it in rows(page)]
    for test in (lambda it: any(word in form.split() for form in it.forms()),
                 lambda it: any(word in code.split() for cell in it.cells for code in CODE.findall(cell)),
                 lambda it: any(word in re.findall(r"[\w-]+", cell) for cell in it.cells)):
        if found := [it for it in every if test(it)]:
            return of_rows(found)
    return []


def explanations(words, entries=None):
    """What these words mean: heads, each with its titled texts. Nothing where no page speaks of them."""
    entries = faults.entries() if entries is None else entries
    if found := re.fullmatch(r"status (\d+)", words):
        return [(words, texts) for _, texts in of_entries(of_key(entries, "status", found[1]))]
    if found := FAULT.fullmatch(words):
        worker = of_entries(of_key(entries, "answer", "worker")) if found[1] else []
        return worker + of_entries(of_key(entries, "fault", found[2]))
    if words.isdigit():
        return of_number(entries, words)
    if found := re.fullmatch(r"\* refused \d+ (\w+)", words):
        return of_entries(of_key(entries, "cause", found[1]))
    if found := re.fullmatch(r"audit broken \d+ (\d+)|rule (\d+)", words):
        return of_rule(found[1] or found[2])
    return of_line(entries, words) if " " in words else of_word(entries, words)
