"""The manual pages, made from the pages of docs/. Used by tools/made.

A page of docs/ is paragraphs, tables, lists and blocks of text; a table's first column is what its rows are found by.
"""
import re
import textwrap
from pathlib import Path

import faults
from highlight import commands, recipe_lines

TOP = Path(__file__).resolve().parent.parent
DATE = "December 2, 2026"
# The end of each page.
HISTORY = f".Sh HISTORY\nThis page is that of version {(TOP / 'VERSION').read_text().strip()}."
LINK = re.compile(r"\[([^\]]*)\]\(([^)]*)\)")
# The manual pages that pages of docs/ make.
MANUALS = {"SCRIPTS.md": "`rproc-script`(5)", "TRANSCRIPT.md": "`rproc-transcript`(5)", "FAULTS.md": "`rproc-faults`(7)"}
# A sentence ends here, where the next begins with a capital letter or a word in code.
SENTENCE = re.compile(r"(?<=[A-Za-z0-9)`'][.:]) (?=[A-Z`[])")
COMMAND = """.Dd {date}
.Dt RPROC 1
.Os
.Sh NAME
.Nm rproc
.Nd boots cores from images and carries messages between both sides
.Sh SYNOPSIS
.Nm
.Cm run
.Nm
.Cm check
.Ar name
.Nm
.Cm demo
.Ar sessions
.Nm
.Cm storm
.Ar hosts remotes count entries
.Nm
.Cm audit
.Sh DESCRIPTION
.Nm
runs remote cores and the links to them, by the word behind its name.
.Bl -tag -width check
.It Cm run
reads a script from standard input, see
.Xr rproc-script 5 ,
and writes its transcript, see
.Xr rproc-transcript 5 .
.It Cm check Ar name
says whether the image of that name in the folder
.Pa firmware
loads into the standard regions, and where.
.It Cm demo Ar sessions
runs the script of a demo of 1 to 500 sessions, and tells how many messages
its links accepted.
.It Cm storm Ar hosts remotes count entries
runs a storm of so many callers on each end of a link, 1 to 31, each on a
thread of its own, of which each sends so many messages, 1 to 8,192, over
rings of so many entries, a power of two up to 32,768, and tells what was sent
and handed over.
.It Cm audit
reads a transcript from standard input and says whether its lines keep the
rules of transcripts.
.El
.Sh FILES
.Bl -tag -width firmware
.It Pa firmware
the folder of images, where the program is started
.El
.Sh EXIT STATUS
.Bl -tag -width Ds
{statuses}
.El
.Sh EXAMPLES
A message to the host:
.Bd -literal -offset indent
$ printf 'link L 4 4 16\\encaller L host\\encaller L remote\\en' > two.script
$ printf 'send L 1 1024 7 6869\\entake L 0\\en' >> two.script
$ rproc run < two.script
L open 1
L caller 0 host
L caller 1 remote
L 1 sent 0
L 0 took 0 from 1024 dropped 7 6869
.Ed
.Sh SEE ALSO
.Xr rproc-chart 1 ,
.Xr rproc-explain 1 ,
.Xr rproc-golden 1 ,
.Xr rproc-script 5 ,
.Xr rproc-transcript 5 ,
.Xr rproc-faults 7
{history}
"""


def plain(text):
    """Text of a page as that of a manual: code in bold, links by their words or the manual page that they lead to."""
    text = LINK.sub(lambda it: MANUALS.get(it[2].partition("#")[0], it[1]), text).replace("\\|", "|").replace("\\", "\\e")
    pieces = text.split("`")
    return "".join(f"\\fB{it}\\fR" if at % 2 else it for at, it in enumerate(pieces))


def sentences(text):
    """Each sentence on a line of its own, none of which begins like a request."""
    lines = []
    for it in SENTENCE.split(text.strip()):
        lines += textwrap.wrap(plain(it), 78, break_long_words=False, break_on_hyphens=False)
    return "\n".join(f"\\&{it}" if it.startswith((".", "'")) else it for it in lines)


def table(rows):
    """A table as a list by its first column."""
    lines = [".Bl -tag -width Ds"]
    for row in rows:
        cells = [it.strip() for it in re.split(r"(?<!\\)\|", row.strip()[1:-1])]
        # With a column between, as that of a status, it stands behind the first.
        head = f"{plain(cells[0])} ({cells[1]})" if len(cells) > 2 else plain(cells[0])
        lines += [f".It {head}", sentences(cells[-1]) or "\\&"]
    return "\n".join([*lines, ".El"])


def parts(text):
    """The body of a section in mdoc."""
    made = []
    for block in re.split(r"\n\s*\n", text.strip()):
        lines = block.splitlines()
        if lines[0].startswith("|"):
            made.append(table(lines[2:]))
        elif lines[0].startswith("- "):
            items = [f".It\n{sentences(it)}" for it in re.split(r"(?:^|\n)- ", block) if it]
            made.append("\n".join([".Bl -bullet", *items, ".El"]))
        elif lines[0].startswith("    "):
            shown = "\n".join(it[4:].replace("\\", "\\e") for it in lines)
            made.append(f".Bd -literal -offset indent\n{shown}\n.Ed")
        else:
            made.append((".Pp\n" if made else "") + sentences(" ".join(lines)))
    return "\n".join(made)


def sections(page):
    """The titles of a page with their bodies; the first is that of the page."""
    found = re.split(r"^#+ (.*)$", (TOP / "docs" / page).read_text(), flags=re.M)
    return list(zip(found[1::2], found[2::2]))


def beginning(name, section, about):
    return f".Dd {DATE}\n.Dt {name.upper()} {section}\n.Os\n.Sh NAME\n.Nm {name}\n.Nd {about}\n.Sh DESCRIPTION"


def file_format(page, name, about, other):
    """The manual page of a format, from a page of docs/."""
    (_, head), *rest = sections(page)
    made = [beginning(name, 5, about), parts(head)]
    made += [f".Ss {title}\n{parts(body)}" for title, body in rest]
    made.append(f".Sh SEE ALSO\n.Xr rproc 1 ,\n.Xr {other} 5 ,\n.Xr rproc-faults 7\n{HISTORY}")
    return "\n".join(made).encode() + b"\n"


def command():
    """The manual page of the program; its statuses are those of share/faults.txt."""
    statuses = "\n".join(f".It {it.key[1]}\n{sentences(it.means)}" for it in faults.entries() if it.key[0] == "status")
    return COMMAND.format(date=DATE, history=HISTORY, statuses=statuses).encode()


def answers():
    """The manual page of faults, statuses and refusals, from share/faults.txt."""
    (head, *rest), made = faults.read(), []
    made.append(beginning("rproc-faults", 7, "faults, statuses and refusals of rproc"))
    made.append("\n".join(sentences(it) for it in head.texts))
    for section in rest:
        if section.entries:
            items = [f".It {plain(answer_head(it))}\n{sentences(answer_text(it))}" for it in section.entries]
            made += [f".Ss {plain(section.title)}", *(sentences(it) for it in section.texts), ".Bl -tag -width Ds", *items, ".El"]
    made.append(".Sh SEE ALSO\n.Xr rproc 1 ,\n.Xr rproc-explain 1 ,\n.Xr rproc-script 5 ,\n.Xr rproc-transcript 5\n" + HISTORY)
    return "\n".join(made).encode() + b"\n"


def answer_head(entry):
    """What an answer is found by: its lines, or its number; a status and a cause by their words."""
    if entry.key[0] in ("status", "cause"):
        return f"`{' '.join(entry.key)}`" if entry.key[0] == "status" else f"`{entry.key[1]}`"
    return faults.shown(entry.lines) or entry.key[1]


def answer_text(entry):
    by = f" (answered by {entry.by})" if entry.by else ""
    meaning = entry.meaning()
    return f"{meaning[:1].upper()}{meaning[1:]}{by}. {entry.do}".strip()


def by_hand():
    """The manual pages that no page of docs/ makes."""
    made = ("rproc.1", "rproc-script.5", "rproc-transcript.5", "rproc-faults.7")
    return sorted(it.name for it in (TOP / "man").iterdir() if it.name not in made)


def written(name):
    """A manual page that is written by hand, with the version and the date of the others."""
    text = (TOP / "man" / name).read_text().partition(".Sh HISTORY")[0]
    return f"{re.sub(r'^[.]Dd .*$', f'.Dd {DATE}', text, flags=re.M)}{HISTORY}\n".encode()


def script():
    return file_format("SCRIPTS.md", "rproc-script", "commands that rproc runs", "rproc-transcript")


def transcript():
    return file_format("TRANSCRIPT.md", "rproc-transcript", "lines that rproc writes", "rproc-script")


def first_words(page):
    """The words in code with which the first column of a page's tables begins."""
    found = set()
    for line in (TOP / "docs" / page).read_text().splitlines():
        if line.startswith("| `"):
            found.update(it.split()[0] for it in re.findall(r"`([^`]+)`", line.split(" | ")[0]))
    return found


def untold_commands():
    """The keywords of the grammar that no table of docs/SCRIPTS.md has."""
    return sorted({*commands(), *recipe_lines()} - first_words("SCRIPTS.md") - {"image", "end"})
