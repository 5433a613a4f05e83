#!/usr/bin/env python3
"""Gives the repository's own definitions and lemmas the spelling of the installed Rattle: words in snake case.

usage: python3 tools/respell.py [FOLDER]      FOLDER holds crates/ and docs/; the default is the folder above this file

Run it once, on what port.py of the toolchain wrote. Each row of respell.tsv, beside this file, is an old name, a tab and the
new one. Whole words turn: in .antt files outside strings; in .rt files in clauses, ghost items and ghost imports; in comments
and in .md files only what stands as code. Functions of src/, strings, inputs and outputs keep their names.
"""

import pathlib
import re
import sys

HERE = pathlib.Path(__file__).resolve().parent
# What ends a name in antt, beside the dot between the parts of a path.
NAME = re.compile(r"[^\s(){}.;,@\"«»\[\]|]+")
PATH = re.compile(r"[^\s(){};,@\"«»\[\]|]+")
PIECE = re.compile(r'"(?:\\.|[^"\\\n])*"|(?:(?<=\s)|^)(?:--|//)[^\n]*', re.M)
GHOST = re.compile(r"^[ ]*(?:pub )?ghost\b|^\s*(?:requires|ensures)\b")
SPAN = re.compile(r"`[^`\n]+`")
# Behind these, a name is one that the toolchain makes.
MADE = ("goal", "c", "g", "w", "l")


def rows():
    with open(HERE / "respell.tsv", encoding="utf-8") as table:
        return dict(line.rstrip("\n").split("\t") for line in table)


def turn_path(path, table):
    if path.split(".")[0] in MADE:
        return path
    return NAME.sub(lambda name: table.get(name[0], name[0]), path)


def turn_code(text, table):
    return PATH.sub(lambda path: turn_path(path[0], table), text)


def turn_words(text, table):
    """Prose: a name turns only where no word of prose is spelled like it."""
    return PATH.sub(lambda path: path[0] if "-" in path[0] else turn_path(path[0], table), text)


def turn_spans(text, table):
    return SPAN.sub(lambda span: turn_code(span[0].strip("`"), table).join("``"), text)


def turn_antt(text, table):
    out, at = [], 0
    for piece in PIECE.finditer(text):
        out.append(turn_code(text[at : piece.start()], table))
        out.append(turn_words(piece[0], table) if piece[0].startswith("--") else piece[0])
        at = piece.end()
    return "".join(out) + turn_code(text[at:], table)


def turn_rt(text, table):
    """Clauses and ghost items: each stands from its first line to the line on which its brackets close."""
    out, depth = [], 0
    for line in text.splitlines(keepends=True):
        if depth > 0 or GHOST.match(line):
            depth += line.count("{") + line.count("(") - line.count("}") - line.count(")")
            out.append(turn_antt(line, table))
        elif "//" in line:
            code, mark, comment = line.partition("//")
            out.append(code + mark + turn_spans(comment, table))
        else:
            out.append(line)
    return "".join(out)


def turn_md(text, table):
    def line(one):
        return turn_code(one, table) if one.startswith("    ") else turn_spans(one, table)

    return "".join(line(one) for one in text.splitlines(keepends=True))


TURNS = {".antt": turn_antt, ".rt": turn_rt, ".md": turn_md}


def files(root):
    for folder in ("crates", "docs", "README.md"):
        top = root / folder
        yield from [top] if top.is_file() else sorted(top.rglob("*"))


def main(words):
    root = pathlib.Path(words[0]) if words else HERE.parent
    table = rows()
    texts = {
        path: path.read_text(encoding="utf-8")
        for path in files(root)
        if path.suffix in TURNS and "out" not in path.parts and not path.name.startswith("PORT")
    }
    # One old name is a new one too, so a second run would turn what the first has made.
    old = set(table) - set(table.values())
    specs = " ".join(text for path, text in texts.items() if path.parent.name == "specs")
    if old.isdisjoint(NAME.findall(specs)):
        sys.exit("respell: no definition has an old name; nothing is written")
    for path, text in texts.items():
        new = TURNS[path.suffix](text, table)
        if new != text:
            path.write_text(new, encoding="utf-8")


if __name__ == "__main__":
    main(sys.argv[1:])
