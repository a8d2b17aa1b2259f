#!/usr/bin/env python3
"""Respells the names of this repository's definitions and lemmas as today's Rattle spells its own: words in snake case.

usage: python3 tools/respell_names.py [--map FILE]   at the top, once, right after port.py

`told-fine` becomes `told_fine` and `listRefusal` becomes `list_refusal`, in the proof files and in the clauses of the sources. What begins with a
capital (types, modules, goals that the prover names) stays, and so does what stands in strings and comments, but for a name in back quotes. Only
what these files declare is respelt, and not where a file takes the name from a library. Where two names of one proof file would fall together the
script names them and writes nothing; a word of a clause may be called as a function is. The choice by a test, `if◌then◌else◌`, is taken from the library,
which has the same one now.
"""
import os
import re
import sys

# An identifier of a proof file: no space, bracket, comma, semicolon, dot or quote.
WORD = re.compile(r"[^\s(){}\[\].,;:`\"@⌜⌝⟨⟩|]+")
# A declaration, in a proof file or of a record's field: its names, of which one line may have several.
DECLARED = re.compile(r"(?m)^ *(?:(?:abbrev|pub|unfoldable|opaque|pattern) )*((?:[^\s:(){}.]+ )+)(?:\{[^{}\n]*\} )*:")
# What a file takes from a module: the second part of its path, which is the crate of a path 'Rattle.CRATE..', and the items.
USE = re.compile(r"\buse \w+\.(\w+)[^\s{;]*\{([^}]*)\}")
# Names that the prover makes.
MADE = ("invariant-", "decreases-", "returns-")
CHOICE = "if◌then◌else◌"
# A lemma that would fall together with the definition that it speaks of.
OTHERWISE = {
    "kind-number": "number_of_kind",
    "corners-right": "triangle_corners_right",
    "places-where": "places_where_bits",
    "left-words": "left_words_rows",
    "is-count": "right_count_is_count",
    "list-lines": "lines_of_list",
    "cuts-right": "right_cuts",
    "plain-right": "right_plain",
    "in-table": "number_in_table",
    "is-inside": "stands_inside",
    "still-fits": "still_fits_finished",
    "no-row": "no_such_row",
    "row-of": "row_of_kind",
    "first-of": "first_of_laying",
    "all-rows": "all_rows_laid",
    "box-frames": "frames_of_box",
    "drum-frames": "frames_of_drum",
    "triangle-frames": "frames_of_triangle",
    "read-field": "field_read",
    "isDigit": "is_a_digit",
    "crossed-with": "crossed_with",
    "◌crossed-with◌": "◌crossed_with◌",
}


def respelt(name):
    """The spelling of today, or the name as it is."""
    if name.startswith(MADE):
        return name
    if name in OTHERWISE:
        return OTHERWISE[name]
    first = name.lstrip("+μ-")[:1]
    if not first.isalpha() or first.isupper() or "◌" in name or not re.search(r"[a-zA-Z]", name):
        return name
    if not re.search(r"[\w∪∩∖μ']-[\w∪∩∖μ]", name) and not re.search(r"[a-z0-9][A-Z]", name):
        return name
    name = re.sub(r"(?<=[\w∪∩∖μ'])-(?=[\w∪∩∖μ])", "_", name)
    return re.sub(r"(?<=[a-z0-9])([A-Z])", lambda m: "_" + m.group(1).lower(), name)


def pieces(text, line_comment, quotes):
    """The text as (is code, piece), comments and strings apart."""
    at, start = 0, 0
    while at < len(text):
        if text.startswith(line_comment, at) and (line_comment != "--" or at == 0 or text[at - 1] in " \n\t"):
            yield True, text[start:at]
            end = text.find("\n", at)
            end = len(text) if end < 0 else end
            yield False, text[at:end]
            at = start = end
        elif quotes and text[at] == '"':
            yield True, text[start:at]
            end = at + 1
            while text[end] != '"':
                end += 2 if text[end] == "\\" else 1
            yield False, text[at : end + 1]
            at = start = end + 1
        else:
            at += 1
    yield True, text[start:]


def turned(text, source, declared):
    """The text with its names respelt, and the names of its code by their new spelling."""
    met, out, lent = {}, [], set()
    for crate, items in USE.findall(text):
        if not os.path.isdir(os.path.join("crates", crate)):
            lent.update(WORD.findall(items))

    def one(m):
        if m.group(0) not in declared or m.group(0) in lent:
            return m.group(0)
        new = respelt(m.group(0))
        met.setdefault(new, set()).add(m.group(0))
        return new

    for code, piece in pieces(text, "//" if source else "--", source):
        if code:
            out.append(WORD.sub(one, piece))
        else:
            out.append(re.sub(r"`[^`\n ]+`", lambda m: WORD.sub(lambda w: respelt(w.group(0)), m.group(0)), piece))
    return "".join(out), met


def with_librarys_choice(text):
    """The text with `if◌then◌else◌` taken from the library and not from this repository's own crate of words."""
    text = re.sub(r"(?m)^infix 5 if◌then◌else◌\nabbrev pub if◌then◌else◌ :.*\nif true then.*\nif false then.*\n\n?", "", text)
    own = re.compile(r"(?m)^((?:ghost )?use Rattle\.ground\.specs\.Tests\.)\{([^}]*)\}(;?)\n")
    line = own.search(text)
    items = [it.strip() for it in line[2].split(",")] if line else []
    if CHOICE not in items:
        return text
    items.remove(CHOICE)
    text = text[: line.start()] + (f"{line[1]}{{{', '.join(items)}}}{line[3]}\n" if items else "") + text[line.end() :]
    prelude = re.compile(r"(?m)^((?:ghost )?use Rattle\.std\.specs\.Prelude\.\{)([^}]*)\}")
    if prelude.search(text):
        return prelude.sub(lambda m: f"{m[1]}{m[2]}, {CHOICE}}}", text, count=1)
    return f"{text[: line.start()]}{'ghost ' if line[3] else ''}use Rattle.std.specs.Prelude.{{{CHOICE}}}{line[3]}\n{text[line.start() :]}"


def main(argv):
    together, olds_of, new, names, declared = [], {}, {}, {}, {"crossed-with"}
    for folder, dirs, files in os.walk("crates"):
        dirs[:] = sorted(d for d in dirs if d != "out")
        for f in sorted(files):
            path = os.path.join(folder, f)
            if not f.endswith((".rt", ".antt")):
                continue
            with open(path, encoding="utf-8") as it:
                olds_of[path] = it.read()
            if f.endswith(".antt"):
                declared.update(it for names_of in DECLARED.findall(olds_of[path]) for it in names_of.split())
    for path, old in olds_of.items():
        text, met = turned(old, path.endswith(".rt"), declared)
        text = with_librarys_choice(text)
        if text != old:
            new[path] = text
        for to, olds in met.items():
            names.setdefault(to, set()).update(olds)
            if len(olds) > 1 and path.endswith(".antt") and not path.endswith("/Proof.antt"):
                together.append(f"{path}: {' '.join(sorted(olds))} would all be {to}")
    if together:
        print("\n".join(together))
        return 1
    for path, text in new.items():
        with open(path, "w", encoding="utf-8") as it:
            it.write(text)
    if argv[:1] == ["--map"]:
        with open(argv[1], "w", encoding="utf-8") as it:
            it.writelines(f"{old}\t{to}\n" for to in sorted(names) for old in sorted(names[to]) if old != to)
    print(f"respelt in {len(new)} files")
    return 0


if __name__ == "__main__":
    raise SystemExit(main(sys.argv[1:]))
