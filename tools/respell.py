#!/usr/bin/env python3
"""Brings this repository's own names in antt to one spelling: snake case for all but types and modules.

usage: python3 tools/respell.py [--check]      at the top of the repository, once, after the kit's port.py

A name that a file of specs/ or proofs/ declares and that has a dash or an inner capital gets underscores, as count-sort becomes count_sort and
mostBallots becomes most_ballots, in antt's text, in clauses, in code spans of comments and of the pages. Names of Rust code, of types, of
modules and of the kit stay. In the proof of a function the names of goals stay: they are the kit's. Edits in must-fail/ are turned too.
A name that would meet another one is printed on a line that begins 'falls together:'.
"""

import os
import re
import sys

WORD = re.compile(r'[^\s(){}.;,@"«»]+')
MARKS = r"(?:(?:pattern|unfoldable|abbrev|axiom|pub|ghost)\s+)*"
# a signature: a name, or a field or a constructor, at the head of a line or behind 'where'
SIGNATURE = re.compile(rf"(?m)^\s*(?:\| )?{MARKS}([^\s(){{}}.;,@\"«»]+(?: +[^\s(){{}}.;,@\"«»:=→]+)*)(?: \{{[^{{}}\n]*\}})* : (.*)$")
QUIET = re.compile(r'"(?:[^"\\\n]|\\.)*"|(?<![^\s(){}.;,@"«»])--[^\n]*|\{-.*?-\}', re.S)
RUST_QUIET = re.compile(r'//[^\n]*|b?"(?:[^"\\]|\\.)*"|b?\'(?:\\.[^\']*|[^\'\\\n])\'')
SPAN = re.compile(r"`[^`\n]+`")
USE = re.compile(r"(?m)\buse ([^\s;{]+)\{([^}]*)\}|\buse ([^\s;{]+)")
KIT = re.compile(r"(?:Rattle\.(?:std|core|std_\w+|libc|io|os)\b|native\b|mathlib\b|Prim\b|lib\b|borrow\b|denote\b|package\b)")


def snake(name):
    words = re.sub(r"(?<=[a-z0-9])[A-Z]", lambda m: "_" + m[0].lower(), name)
    return words.replace("-", "_")


def turns(name):
    """Whether the spelling of a declared name changes: it begins with a lower-case letter and has a dash or an inner capital."""
    return bool(re.match(r"[a-z]", name)) and snake(name) != name and bool(re.fullmatch(r"[A-Za-z0-9_\-'₀-₉∷]+", name))


def quiet(text, pattern=QUIET):
    return pattern.sub(lambda m: " " * len(m[0]), text)


def own_texts(top):
    for folder, dirs, files in os.walk(os.path.join(top, "crates")):
        dirs[:] = sorted(d for d in dirs if d not in ("out", ".git", "target"))
        for f in sorted(files):
            if f.endswith((".rt", ".antt", ".edit")):
                yield os.path.join(folder, f)


def read(path):
    with open(path, encoding="utf-8") as f:
        return f.read()


def declared(text):
    """The names that a text of antt declares, each with whether its type is a goal of the kit's."""
    for m in SIGNATURE.finditer(quiet(text)):
        names = m[1].split()
        if names[0] in ("use", "λ", "let", "where", "module", "in", "data", "record"):
            names = names[1:] if names[0] == "let" else []
        for name in names:
            yield name, m[2].lstrip().startswith("tie.")


RECORD = re.compile(r"(\s*)(?:(?:abbrev|unfoldable|pub) )*(record|data) .*where$")


def blocks(text):
    """The lines that stand in the block of a record or of a type of data, each with which."""
    found, inside = {}, None
    for at, line in enumerate(quiet(text).split("\n")):
        if not line.strip():
            continue
        indent = len(line) - len(line.lstrip())
        if inside and indent <= inside[0]:
            inside = None
        m = RECORD.match(line.rstrip())
        if inside is None and m:
            inside = (len(m[1]), m[2])
        elif inside:
            found[at] = inside[1]
    return found


def module_of(path, top):
    return "Rattle." + os.path.relpath(path, os.path.join(top, "crates"))[: -len(".antt")].replace("/", ".")


def definitions(path, text):
    """The names that a text declares, but for fields and constructors."""
    inside, lines = blocks(text), text.split("\n")
    return {n for at, l in enumerate(lines) if at not in inside for n, _ in declared(l)}


# constructors of Broken that would meet the tests of their names
SPECIAL = {"none_left": "is_none_left", "cut_short": "is_cut_short", "not-due": "is_not_due"}
OF_BROKEN = re.compile(r"Rattle\.protocol\.specs\.Broken$")


def table_of(top):
    names, goals = set(), {}
    for path in own_texts(top):
        if not path.endswith(".antt"):
            continue
        for name, of_goal in declared(read(path)):
            if of_goal:
                goals.setdefault(path, set()).add(name)
            else:
                names.add(name)
    table, groups, lemmas = {}, {}, set()
    for n in names:
        groups.setdefault(snake(n) if turns(n) else n, set()).add(n)
    for new, group in groups.items():
        # a lemma that would have its definition's name ends in _lem
        defined = {n for n in group if re.search("[A-Z]", n)} or {n for n in group if "-" not in n}
        for n in group:
            lemma = len(group) > 1 and defined and n not in defined
            if lemma:
                lemmas.add(n)
            if turns(n):
                table[n] = new
    return table, names, goals, lemmas


def from_kit(text):
    """The names that a text takes from the kit."""
    found = set()
    for path, items, alone in USE.findall(text):
        if KIT.match(path or alone):
            found.update(WORD.findall(items))
    return found


class Turner:
    def __init__(self, table):
        self.table, self.count = table, 0
        self.local, self.steps, self.special = False, False, {}

    def words(self, text, stay, at=0):
        def one(m):
            word = m[0]
            behind = text[m.start() - 1 : m.start()] == "."
            new = self.table.get(word, word if word in self.special else None)
            if word in stay:
                return word
            if new is None and self.local and not behind and turns(word) and (not self.steps or "-" not in word):
                new = snake(word)
            if new is None:
                return word
            if not behind and not self.is_field(text, m, at):
                new = self.special.get(word, new)
            self.count += 1
            return new

        return WORD.sub(one, text)

    def is_field(self, text, m, at):
        """A field in a record that is written out, behind '{' or ';' and before '=', or one that is declared."""
        before, after = text[: m.start()].rstrip()[-1:], text[m.end() :].lstrip()
        written = before != "" and before in "{;" and after.startswith("= ")
        return written or after.startswith(": ") and self.lines[at + m.start()] in self.blocks

    def comment(self, text, stay):
        """A comment: code spans, and words with an inner capital wherever they stand."""

        def span(m):
            return re.sub(r"[A-Za-z][\w\-']*", lambda w: self.table.get(w[0], w[0]) if w[0] not in stay else w[0], m[0])

        text = SPAN.sub(span, text)
        return re.sub(r"\b[a-z]+[0-9]*[A-Z]\w*", lambda w: self.table.get(w[0], w[0]) if w[0] not in stay else w[0], text)

    def whole(self, text, stay, pattern):
        out, at = [], 0
        self.blocks, self.lines, line = blocks(text), [], 0
        for sign in text + "\n":
            self.lines.append(line)
            line += sign == "\n"
        for m in pattern.finditer(text):
            out.append(self.words(text[at : m.start()], stay, at))
            out.append(self.comment(m[0], stay) if m[0][:1] not in "\"'b" else m[0])
            at = m.end()
        out.append(self.words(text[at:], stay, at))
        return "".join(out)


def main(argv):
    top = os.getcwd()
    table, names, goals, lemmas = table_of(top)
    of_module = {}
    for path in own_texts(top):
        if path.endswith(".antt"):
            of_module[module_of(path, top)] = definitions(path, read(path))
    for old, new in sorted(table.items()):
        twins = [n for n, s in table.items() if s == new and n != old]
        if new in names and new not in table or twins:
            print(f"falls together: {old} and {', '.join(twins) or new}")
    turner = Turner(table)

    def special_in(path, text):
        """Names that end in _lem in this file, and constructors that get a name of their own."""
        found, own = {}, definitions(path, text) if path.endswith(".antt") else set()
        taken = [(module_of(path, top), own)] if path.endswith(".antt") else []
        for where, items, alone in USE.findall(quiet(text)):
            module = (where or alone).rstrip(".")
            module = re.sub(r"\.(\w+)$", r".\1", module)
            if module in of_module:
                taken.append((module, set(WORD.findall(items)) & of_module[module]))
            if OF_BROKEN.search(module):
                found.update({n: SPECIAL[n] for n in SPECIAL if n in WORD.findall(items)})
        if path.endswith("protocol/specs/Broken.antt"):
            found.update(SPECIAL)
        for module, these in taken:
            found.update({n: snake(n) + "_lem" for n in these & lemmas if n not in found})
        return found
    for path in own_texts(top):
        text = read(path)
        if path.endswith(".antt"):
            stay = from_kit(quiet(text)) | goals.get(path, set())
            turner.local, turner.steps = True, bool(re.search(r"/(Proof|Answers|Invariants)\.antt$", path))
            turner.special = special_in(path, text)
            new = turner.whole(text, stay, QUIET)
        elif path.endswith(".rt"):
            stay = from_kit(quiet(text, RUST_QUIET))
            turner.local, turner.special = False, special_in(path, quiet(text, RUST_QUIET))
            new = turner.whole(text, stay, RUST_QUIET)
        else:
            turner.local, turner.special, turner.blocks = False, {}, {}
            turner.lines = [0] * (len(text) + 1)
            new = "\n".join(turner.words(l, set()) if l.startswith(("old:", "new:")) else l for l in text.split("\n"))
        if new != text and "--check" not in argv:
            with open(path, "w", encoding="utf-8") as f:
                f.write(new)
    # the pages: a code span's word whose new spelling is declared
    spelled = {snake(n) for n in names} | set(table.values())
    pages = [os.path.join(top, "README.md")]
    for folder, _, files in os.walk(os.path.join(top, "docs")):
        pages += [os.path.join(folder, f) for f in sorted(files) if f.endswith(".md")]
    for path in pages:
        if not os.path.exists(path):
            continue
        text = read(path)

        def word(w):
            return snake(w[0]) if turns(w[0]) and snake(w[0]) in spelled else w[0]

        new = SPAN.sub(lambda m: re.sub(r"(?<![\w/.\-])[a-z][\w\-']*(?![\w/\-])", word, m[0]), text)
        if new != text and "--check" not in argv:
            with open(path, "w", encoding="utf-8") as f:
                f.write(new)
    print(f"respell: {len(table)} names, {turner.count} places")


if __name__ == "__main__":
    main(sys.argv[1:])
