#!/usr/bin/env python3
"""Respells the repository's own names of specs/ and proofs/ in snake case: runsFrom is runs_from, energy-limit is energy_limit, x′ is x'.

usage: python3 tools/respell.py [--list]      at the top of the repository; --list only prints old and new names

It finds the names that the .antt files below crates/ declare, and turns them there, in the contracts of .rt files, in must-fail edits, and in
comments and docs. Types and modules stay in camel case. Names that come from std or another library stay as they are, file by file.
Where two names of a file would fall together it writes nothing and says which: give one of them a row in OTHERWISE. A second run changes nothing.
"""

import os
import re
import sys

# Names whose plain respelling would meet another name in some file, or a reserved word.
OTHERWISE = {
    # a lemma beside the function that it is about
    "awake-of": "awake_of_lem",
    "ends-at": "ends_at_lem",
    "fault-here": "fault_here_lem",
    "least-of": "least_of_lem",
    "next-from": "next_from_lem",
    "run-answer": "run_answer_lem",
    "start-for": "start_for_lem",
    "third-record": "third_record_lem",
    "third-text": "third_text_lem",
    "touches-after": "touches_after_lem",
    "truncated-text": "truncated_text_lem",
    "up-from": "up_from_lem",
    "woken-from": "woken_from_lem",
    "working-of": "working_of_lem",
    # a lemma or a field beside a function that it is not about
    "awake-before": "asleep_before_waking",
    "awake-slots": "same_awake_slots",
    "filled-front": "front_filled",
    "served-inside": "served_if_inside",
    "volume-inside": "volume_if_inside",
    # a function beside a lemma that has its new name already
    "goesOn": "going_on",
    "mapOf": "map_bytes_of",
    "twoRuns": "two_run_bytes",
    # a tactic's name
    "firstOf": "first_run_of",
}

RESERVED = set(
    "data record deriving module where use mod pub package open as unfoldable abbrev axiom unfold unfolding ruleset mutual infix infixl infixr "
    "elim let in do pattern coe fcoe tcoe hcom com result self ground assumption rw simp search grw cc omega grind hlevel first_of cap".split()
)

# A word of antt: any run of characters other than these.
WORD = r"[^\s(){}.;,@\"«»]+"
SIGNATURE = re.compile(rf"^(\s*)((?:(?:pattern|unfoldable|abbrev|pub|axiom)\s+)*)({WORD})\s*(?:\{{[^}}]*\}}\s*)?:(?=\s|$)")
# A name in an old spelling: with a dash or a prime of old, or in camel case.
OLD = re.compile(r"^[^\WA-Z].*-.|^\+.*-.|^[^\W\dA-Z][^-]*[A-Z]|′")
HEAD = re.compile(rf"^(\s*)(?:pub\s+)?(record|data)\s+({WORD})")
USE = re.compile(rf"^\s*(?:pub\s+)?(?:ghost\s+)?use\s+({WORD}(?:\.{WORD})*)(?:\.\{{([^}}]*)\}})?(?:\s+as\s+({WORD}))?", re.M)
ANTT_PARTS = re.compile(rf"(?P<use>^[ \t]*(?:pub\s+)?use\s[^\n]*)|(?P<comment>--[^\n]*)|(?P<text>\"(?:\\.|[^\"\\\n])*\")|(?P<word>{WORD})", re.M)
RUST_PARTS = re.compile(
    rf"(?P<use>^[ \t]*ghost\s+use\s[^;]*;)|(?P<comment>//[^\n]*)|(?P<text>\"(?:\\.|[^\"\\])*\"|'(?:\\.|[^'\\\s])')|(?P<word>{WORD})", re.M
)


def respell(name):
    """A name's new spelling."""
    if name in OTHERWISE:
        return OTHERWISE[name]
    name = name.replace("′", "'")
    if "A" <= name[0] <= "Z":
        return re.sub(r"-(.)", lambda m: m.group(1).upper(), name)
    name = re.sub(r"(?<=[a-z0-9'])([A-Z])", lambda m: "_" + m.group(1), name)
    name = re.sub(r"(?<=[A-Z])([A-Z])(?=[a-z])", r"_\1", name)
    name = re.sub(r"(?<=[^-])-(?=.)", "_", name)
    return re.sub(r"[A-Z]", lambda m: m.group(0).lower(), name)


def plain(name):
    """Whether it is a name of letters, and no operator or numeral."""
    return "◌" not in name and re.search(r"[^\W\d_]", name) and not name.startswith(("?", "--")) and name not in RESERVED


def read(path):
    with open(path, encoding="utf-8", newline="") as f:
        return f.read()


class Names:
    """The names that the tree declares, and what each file imports."""

    def __init__(self):
        self.texts = {}
        for folder, dirs, files in os.walk("crates"):
            dirs[:] = sorted(d for d in dirs if d not in ("out", ".git"))
            for f in sorted(files):
                if f.endswith((".antt", ".rt")):
                    p = os.path.join(folder, f)
                    self.texts[p] = read(p)
        self.crates = set(os.listdir("crates"))
        self.declared = {}  # file: names
        self.fields = set()  # names of fields and constructors
        self.of_record = {}  # (file, record): names of its fields
        for p, t in self.texts.items():
            if p.endswith(".antt"):
                self.look(p, t)
        self.all = set().union(*self.declared.values()) if self.declared else set()
        # what a file imports from elsewhere under its own name, and the new names that imports give here
        self.foreign, self.aliases = {}, set()
        for p, t in self.texts.items():
            self.foreign[p] = set()
            for m in USE.finditer(t):
                path, items, alias = m.groups()
                for name, as_name in self.items(path, items, alias):
                    if as_name:
                        self.aliases.add(as_name)
                    elif not self.own(path, name):
                        self.foreign[p].add(name)
        self.all |= {a for a in self.aliases if plain(a) and not a[0].isupper()}
        self.all |= self.locals()
        self.all_foreign = set().union(*self.foreign.values()) if self.foreign else set()
        self.turn = {n: respell(n) for n in self.all if plain(n) and respell(n) != n}

    def locals(self):
        """Parameters and other local names of the .antt files that are in an old spelling."""
        found = set()
        for p, t in self.texts.items():
            if p.endswith(".antt"):
                found |= {w for w in bare_words(t, ANTT_PARTS) - self.foreign[p] if plain(w) and OLD.search(w)}
        return found

    def since(self, word):
        """The new spelling of a word in an old one, where that is a name of the tree's: comments, pages and edits may be older than the code."""
        if word in self.all_foreign or not plain(word) or not OLD.search(word):
            return None
        new = respell(word)
        return new if new in self.all else None

    def look(self, p, t):
        names, owner = set(), None
        for line in t.split("\n"):
            if line.strip().startswith("--") or not line.strip():
                continue
            indent = len(line) - len(line.lstrip())
            if owner and indent <= owner[0]:
                owner = None
            m = HEAD.match(line)
            if m:
                names.add(m.group(3))
                owner = (indent, m.group(3))
                continue
            m = SIGNATURE.match(line)
            if m and plain(m.group(3)):
                names.add(m.group(3))
                if owner:
                    self.fields.add(m.group(3))
                    self.of_record.setdefault((p, owner[1]), []).append(m.group(3))
        self.declared[p] = names

    @staticmethod
    def items(path, items, alias):
        """The names that a use line brings in, each with the name it gets."""
        if items is None:
            return [(path.split(".")[-1], alias)]
        found = []
        for it in items.split(","):
            words = it.split()
            if words:
                found.append((words[0], words[2] if len(words) == 3 and words[1] == "as" else None))
        return found

    def file_of(self, path):
        """The file of a module of this repository, or None."""
        # edits still write Rattle·c.specs.M, or Rattle·c·specs.specs.M
        parts = re.sub(r"^(Rattle\.\w+\.)(specs|proofs)\.\2\.", r"\1\2.", path.replace("·", ".")).split(".")
        if parts[0] == "Rattle" and len(parts) > 3 and parts[1] in self.crates and parts[2] in ("specs", "proofs"):
            f = os.path.join("crates", *parts[1:]) + ".antt"
            return f if f in self.texts else None
        return None

    def own(self, path, name):
        """Whether a use line's name is one that a file of this repository declares (or hands on from one that does)."""
        f = self.file_of(path)
        if not f:
            return False
        if name in self.declared[f]:
            return True
        for m in USE.finditer(self.texts[f]):
            if m.group(0).lstrip().startswith("pub"):
                for n, a in self.items(*m.groups()):
                    if (a or n) == name:
                        return bool(a) or self.own(m.group(1), n)
        return False


class Turner:
    def __init__(self, names):
        self.names = names
        self.seen = {}  # old name: how often it was turned
        self.in_words = {}  # in comments and pages

    def hit(self, where, old, new):
        where[old] = where.get(old, 0) + 1
        return new

    def use_line(self, text):
        n = self.names

        def one(m):
            path, items, alias = m.groups()
            whole = m.group(0)
            if items is not None:
                lead, rest = whole.split(".{", 1)

                def item(im):
                    name, as_part, as_name = im.group(1), im.group(2) or "", im.group(3)
                    if n.own(path, name) and name in n.turn:
                        name = self.hit(self.seen, name, n.turn[name])
                    elif n.since(name) and n.own(path, n.since(name)):
                        name = self.hit(self.seen, name, n.since(name))
                    if as_name in n.turn:
                        as_part = as_part.replace(as_name, self.hit(self.seen, as_name, n.turn[as_name]))
                    return name + as_part

                return lead + ".{" + re.sub(rf"({WORD})(\s+as\s+({WORD}))?", item, rest)
            if alias in n.turn:
                return whole[: -len(alias)] + self.hit(self.seen, alias, n.turn[alias])
            return whole

        return USE.sub(one, text)

    def words(self, text):
        """A comment or a page: names in camel case anywhere, names with a dash only in backquotes."""
        n = self.names

        def one(m):
            w = m.group(0)
            new = n.since(w) or (n.turn.get(w) if w not in n.all_foreign else None)
            return self.hit(self.in_words, w, new) if new else w

        def quoted(m):
            return re.sub(r"[^\s(){}.;,@\"«»`]+", one, m.group(0))

        text = re.sub(r"(?<![\w/.-])[a-z][a-z0-9]*(?:[A-Z][A-Za-z0-9]*)?[\w'′]*(?![\w-])", one, text)
        return re.sub(r"`[^`\n]+`", quoted, text)

    def code(self, text, parts, foreign, also=None):
        """antt text, or Rust's with its clauses."""
        n = self.names

        def one(m):
            if m.group("use"):
                return self.use_line(m.group(0))
            if m.group("comment"):
                return self.words(m.group(0))
            w = m.group("word")
            if not w:
                return m.group(0)
            new = n.turn.get(w) or (also(w) if also else None)
            if not new:
                return w
            if m.start() and text[m.start() - 1] == ".":
                return self.hit(self.seen, w, new) if w in n.fields or self.by_module(text, m.start()) else w
            return w if w in foreign else self.hit(self.seen, w, new)

        return parts.sub(one, text)

    def by_module(self, text, at):
        """Whether what stands before a dot is the path of a module of this repository."""
        m = re.search(rf"({WORD}(?:\.{WORD})*)\.$", text[max(0, at - 300) : at])
        return bool(m and self.names.file_of(m.group(1)))

    def edit(self, text):
        """A must-fail edit. The names in it may be older than the tree's: one is turned too where its new spelling is a name of the tree's own."""
        n = self.names
        kind, foreign = RUST_PARTS, set()

        lines = text.split("\n")
        for i, line in enumerate(lines):
            m = re.match(r"(file|old|new):( ?)(.*)$", line)
            if not m:
                lines[i] = self.words(line)
            elif m.group(1) == "file":
                kind = ANTT_PARTS if m.group(3).strip().endswith(".antt") else RUST_PARTS
                foreign = n.foreign.get(os.path.join(self.crate, m.group(3).strip()), set())
            else:
                lines[i] = m.group(1) + ":" + m.group(2) + self.code(m.group(3), kind, foreign, n.since)
        return "\n".join(lines)


def bare_words(text, parts):
    found = set()
    for m in parts.finditer(text):
        if m.group("use"):
            for u in USE.finditer(m.group(0)):
                found |= {a or i for i, a in Names.items(*u.groups())}
        w = m.group("word")
        if w and not (m.start() and text[m.start() - 1] == "."):
            found.add(w)
    return found


def together(names):
    """Names that would fall together: in a file, or in a record."""
    said = []
    for p, t in names.texts.items():
        rust = p.endswith(".rt")
        words = bare_words(t, RUST_PARTS if rust else ANTT_PARTS)
        new = {}
        for w in sorted(words):
            if w in names.turn and w not in names.foreign[p]:
                new.setdefault(names.turn[w], []).append(w)
        for n, olds in sorted(new.items()):
            if len(olds) > 1:
                said.append((p, n, f"{' and '.join(olds)} both become {n}"))
            elif n in words:
                if rust and hides(t, n) is None:
                    continue
                said.append((p, n, f"{olds[0]} becomes {n}, which stands there already"))
            if n in RESERVED:
                said.append((p, n, f"{olds[0]} becomes the reserved word {n}"))
    for (p, r), fields in names.of_record.items():
        turned = [names.turn.get(f, f) for f in fields]
        for f in sorted({f for f in turned if turned.count(f) > 1}):
            said.append((p, f, f"two fields {f} in {r}"))
    return said


def hides(text, name):
    """In Rust: a parameter, a local or a field of that name. A function's name hides nothing in a clause."""
    return re.search(rf"(?<![\w:.]){re.escape(name)}\s*:(?!:)|\blet\s+(?:mut\s+)?{re.escape(name)}\b|\bfor\s+{re.escape(name)}\b|λ[^.]*\b{re.escape(name)}\b[^.]*\.", text)


def main(argv):
    if not os.path.isdir("crates"):
        print("respell: run it at the top of the repository", file=sys.stderr)
        return 2
    names = Names()
    if "--list" in argv:
        for old, new in sorted(names.turn.items()):
            print(old, new)
        return 0
    said = together(names)
    if said:
        for p, _, s in said:
            print(f"{p}: {s}")
        print(f"respell: {len(said)} names would fall together, and nothing was written", file=sys.stderr)
        return 1
    turner = Turner(names)
    changed = 0

    def write(p, old, new):
        nonlocal changed
        if new != old:
            with open(p, "w", encoding="utf-8", newline="") as f:
                f.write(new)
            changed += 1

    for p, t in names.texts.items():
        write(p, t, turner.code(t, RUST_PARTS if p.endswith(".rt") else ANTT_PARTS, names.foreign[p]))
    for c in sorted(names.crates):
        folder = os.path.join("crates", c, "must-fail")
        turner.crate = os.path.join("crates", c)
        for f in sorted(os.listdir(folder)) if os.path.isdir(folder) else []:
            if f.endswith(".edit"):
                p = os.path.join(folder, f)
                t = read(p)
                write(p, t, turner.edit(t))
    pages = [p for p in ("README.md", "crates.txt") if os.path.isfile(p)]
    for top in ("docs", "dist"):
        for folder, _, files in os.walk(top):
            pages += [os.path.join(folder, f) for f in sorted(files) if f.endswith(".md")]
    for p in pages:
        t = read(p)
        write(p, t, turner.words(t))
    print(f"respell: {len(names.turn)} names, {sum(turner.seen.values())} places and {sum(turner.in_words.values())} in words, {changed} files")
    return 0


if __name__ == "__main__":
    raise SystemExit(main(sys.argv[1:]))
