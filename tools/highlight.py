"""The files by which editors highlight scripts and transcripts, made from the grammar. Used by tools/made."""
import json
import re
from pathlib import Path

TOP = Path(__file__).resolve().parent.parent
FORMS = TOP / "crates/script_lang/src"
KEYWORD = re.compile(r'Form::\w+(?:\(_\))? => "([a-z]+)"')
# Words of commands that are no keywords.
CHOICES = "host remote std bare tcm pool mmufault watchdog fatal sink echo sample on off any last".split()
# The words by which the lines of a transcript differ, by what a reader looks for.
GOOD = "open running attached detached offline idle ok reclaimed".split()
DONE = "sent took gave bound unbound begun caller pumped books".split()
BAD = ("closed crashed fault dead busy dropped malformed refused unknown already stopped missing too-large no-link no-caller "
       "in-call no-call not-held too-long no-buffer book-full not-running broken").split()


def keywords(pattern):
    """The keywords of the forms in these files of the grammar."""
    return sorted({it for path in FORMS.glob(pattern) for it in KEYWORD.findall(path.read_text())})


def commands():
    found = {it for name in ("forms.rt", "call_forms.rt", "core_forms.rt") for it in keywords(name)}
    return sorted(found | {"image", "end"})


def recipe_lines():
    return sorted({*keywords("recipe_forms.rt"), *keywords("record_forms.rt")} - set(commands()))


def vim(title, groups, comment):
    """A syntax file of vim: words by their group of highlighting."""
    lines = [f'" {title}. Made by tools/made.', 'if exists("b:current_syntax")', "  finish", "endif", "syn case match",
             "setlocal iskeyword+=-"]
    lines += [f"syn keyword {group} {' '.join(words)}" for group, words in groups]
    lines.append(r"syn match rprocNumber /\<\(0x\x\+\|\d\+\)\>/")
    if comment:
        lines.append(r"syn match rprocComment /^\s*#.*$/")
    links = [(group, link) for (group, _), link in zip(groups, ("Statement", "Identifier", "Constant"))]
    links += [("rprocNumber", "Number")] + ([("rprocComment", "Comment")] if comment else [])
    lines += [f"hi def link {group} {link}" for group, link in links]
    return "\n".join([*lines, f'let b:current_syntax = "{title}"']).encode() + b"\n"


def text_mate(title, groups, comment):
    """A grammar of TextMate: the same words by their scopes."""
    patterns = [{"name": f"comment.line.number-sign.{title}", "match": r"^\s*#.*$"}] if comment else []
    for scope, words in groups:
        words = "|".join(re.escape(it) for it in words)
        patterns.append({"name": f"{scope}.{title}", "match": rf"(?<!\S)(?:{words})(?!\S)"})
    patterns.append({"name": f"constant.numeric.{title}", "match": r"(?<!\S)(?:0x[0-9A-Fa-f]+|[0-9]+)(?!\S)"})
    grammar = {"scopeName": f"source.{title}", "name": title, "fileTypes": [title], "patterns": patterns}
    return json.dumps(grammar, indent=2).encode() + b"\n"


def vim_script():
    groups = [("rprocCommand", commands()), ("rprocRecipe", recipe_lines()), ("rprocChoice", CHOICES)]
    return vim("rproc-script", groups, True)


def vim_transcript():
    return vim("rproc-transcript", [("rprocBad", BAD), ("rprocGood", GOOD), ("rprocDone", DONE)], False)


def text_mate_script():
    groups = [("keyword.control", commands()), ("entity.name.tag", recipe_lines()), ("constant.language", CHOICES)]
    return text_mate("rproc-script", groups, True)


def text_mate_transcript():
    groups = [("invalid.illegal", BAD), ("string.unquoted", GOOD), ("support.function", DONE)]
    return text_mate("rproc-transcript", groups, False)
