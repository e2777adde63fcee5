#!/usr/bin/env python3
"""Spells the repository's own definitions and lemmas in snake case, where an older spelling joined words by dashes or capitals.

usage: tools/respell.py [--check] [ROOT]

Run once, behind the kit's port.py, which turns only the names that a library had too. A name turns in every file of ROOT (by default the
checkout) that does not import it from a library: in definitions and proofs, in the clauses and ghost imports of code, in must-fail edits,
and in the code spans of the pages. A lemma that would have its definition's name gets `_lem`; a record's field, which is reached by a dot
or set in braces, may have that name. Functions of src/, strings, inputs and outputs keep their names, and a definition that has a function
of its name beside it gets `_of`. --check writes nothing. It fails where two names of a file would fall together.
"""

import collections
import os
import re
import sys

NAME = r"[^\s(){}.;,@\"«»:`\[\]]+"
# Definitions that stand in one file with a function of src/ whose name they would get.
BESIDE = set(
    """leftRole rightRole hasArrow isClose numberCount truthCount aloneRole lastComma lastSign nextState commaPair colonAttribute colonFirst
    codePoint digitSet signNumber starNumber headNumber detailNumber kindNumber formNumber isLiteral""".split()
)
END = r"[,};]"
SKIPPED = ("out", ".git", "target")
DECLARED = re.compile(r"^ *(?:(?:pub|abbrev|unfoldable|data|record) )*([^\s(){}.;,@\"«»:]+)(?: [({][^:]*:[^)}]*[)}])* :(?= |$)", re.M)
SEVERAL = re.compile(r"^ *([^(){}:=→.,;\"\n]+ [^(){}:=→.,;\"\n ]+) :(?= |$)", re.M)
BOUND = re.compile(r"[({]([^(){}:→=]*) : ")
USE = re.compile(r"\b(?:ghost )?use ([^\s;{]+?)\.?(?:\{([^}]*)\})?(?: as (\S+?))?;?$", re.M)
# strings, comments and all else of an .antt or .rt file, in order
ANTT = re.compile(r'"(?:[^"\\\n]|\\.)*"|(?<![^\s(){}.;,@"«»])--[^\n]*|\{-.*?-\}', re.S)
RUST = re.compile(r"""//[^\n]*|b?"(?:\\.|[^"\\])*"|b?'(?:\\.[^']*|[^'\\])'""", re.S)
CLAUSE = re.compile(r"ghost use [^;]*;|\b(?:requires|ensures|ghost)\*?\s*(?:\w+\s*:?\s*)?\{")
SPAN = re.compile(r"`[^`\n]+`")
RECORD = re.compile(r"(?m)^( *)(?:(?:pub|abbrev|unfoldable) )*record [^\s(){}]")
FIELD = re.compile(r"(?m)^ +(?:pub )?([^(){}:=→.,;\"\n]+) :(?= |$)")
# a bracket, what parts fields, or a name
PART = re.compile(rf"[({{\[)}}\];]|{NAME}")
MARK = "\ue000"  # stands before a field's name while a file turns
FENCE = re.compile(r"^( *)```.*?^\1```", re.S | re.M)
INDENTED = re.compile(r"(?m)^(?:    |\t).*$")


def snake(name):
    return re.sub(r"(?<=[a-z0-9])([A-Z])", lambda m: "_" + m[1].lower(), name).replace("-", "_")


def is_old(name):
    """A name of ours in the older spelling: it begins with a small letter, and has a dash between words, or a capital."""
    return bool(re.match(r"[a-zλ]", name)) and snake(name) != name and not re.search(r"[→↦≡⊎×]|◌", name)


def files(root, *suffixes):
    for folder, dirs, names in os.walk(root):
        dirs[:] = sorted(d for d in dirs if d not in SKIPPED)
        for name in sorted(names):
            if name.endswith(suffixes):
                yield os.path.join(folder, name)


def read(path):
    with open(path, encoding="utf-8") as f:
        return f.read()


def is_lemma_file(path):
    return re.search(r"/(?:specs|proofs)/[^/]+\.antt$", path)


def declared(root):
    """The names that definitions and lemmas declare, constructors of one line among them and what has capitals in binders, but for those
    of a function's own proof."""
    found = collections.Counter()
    for path in files(os.path.join(root, "crates"), ".antt"):
        if is_lemma_file(path):
            text = ANTT.sub(" ", read(path))
            found.update(DECLARED.findall(text))
            for row in SEVERAL.findall(text):
                found.update(row.split())
            for row in BOUND.findall(text):
                found.update(it for it in row.split() if "-" not in it)
    return found


def blank(text):
    """The text of an .antt file with spaces for its strings and comments."""
    return ANTT.sub(lambda m: re.sub(r"[^\n]", " ", m[0]), text)


def records(text):
    """Where the fields of each record begin and end, in a text without comments."""
    for m in RECORD.finditer(text):
        where = re.compile(r"\bwhere *\n").search(text, m.end())
        end = where.end() if where else len(text)
        below = re.compile(r"(?m)^ {0,%d}[^ \n]" % len(m[1])).search(text, end)
        yield end, below.start() if below else len(text)


def fields(text):
    """The fields that the records of a text without comments declare, each with its record's place."""
    for start, end in records(text):
        for row in FIELD.findall(text[start:end]):
            for name in row.split():
                yield name, start, end


def all_fields(root):
    paths = files(os.path.join(root, "crates"), ".antt")
    return {name for path in paths if is_lemma_file(path) for name, _, _ in fields(blank(read(path)))}


def field_places(text, names):
    """Where a word of `names` is a record's field: declared, behind a value's dot, or set in braces."""
    text, found = blank(text), set()
    for name, start, end in fields(text):
        if name in names:
            found.update(m.start() for m in re.compile(NAME).finditer(text, start, end) if m[0] == name)
    for m in re.finditer(rf"(?<=\.){NAME}", text):
        before = re.search(rf"({NAME})?\.$", text[max(0, m.start() - 200):m.start()])[1]
        if m[0] in names and not (before and before[0].isupper()):
            found.add(m.start())
    within, last = [], ""
    for m in PART.finditer(text):
        it = m[0]
        if it in "({[":
            within.append(last == "record")
        elif it in ")}]":
            within = within[:-1]
        elif it in names and last in ("{", ";") and within and within[-1]:
            found.add(m.start())
        last = it
    return sorted(found)


def renamed(root):
    """What ghost imports of code are renamed to."""
    found = set()
    for path in files(os.path.join(root, "crates"), ".rt"):
        for use in re.findall(r"ghost use [^;]*;", RUST.sub(" ", read(path))):
            found.update(re.findall(r" as ([a-z]+[A-Z]\w*)[,};]", use))
    return found


def table(names):
    """Each old name with its new one."""
    groups = collections.defaultdict(list)
    for name in names:
        new = snake(name) if is_old(name) else name
        groups[new + "_of" if name in BESIDE else new].append(name)
    turned = {}
    for new, olds in groups.items():
        # a definition has capitals; a lemma has dashes, or lost them already
        capitals = [n for n in olds if "-" not in n and n != new]
        for old in olds:
            if len(olds) > 1 and old not in capitals and (capitals or old != new):
                turned[old] = new + "_lem"
            elif old != new:
                turned[old] = new
    return turned


def from_libraries(text):
    """The names that the file imports from a library."""
    found = set()
    for module, items, alias in USE.findall(text):
        if module.startswith("Rattle.") and not re.match(r"Rattle\.(core|std\w*|libc|os|io)\.", module + "."):
            continue
        for item in (items or "").split(","):
            parts = item.split(" as ")
            found.add(parts[-1].strip())
            found.add(parts[0].strip())
        if alias:
            found.add(alias)
    return found


def goals(text):
    """The names of the goals that a function's proof answers."""
    return set(re.findall(r"(?m)^(?:abbrev )?(?:pub )?(\S+) : (?:tie|goal)\.", text)) | set(re.findall(r"(?:tie|goal)\.(?:Need-)?([^\s(){};,.]+)", text))


class Turner:
    def __init__(self, turned, fields=()):
        self.turned, self.clashes = turned, []
        # the fields that a lemma's ending would be a mistake for
        self.fields = {it for it in fields if turned.get(it) == snake(it) + "_lem"}

    def words(self, text, kept, only=None, old=False):
        """The text with its names turned; those alone that `only` has, if it is given; and, if `old`, those alone of the older spelling."""

        def one(m):
            word = m[0]
            if word.startswith(MARK):
                return snake(word[1:])
            if old and not is_old(word.rstrip("'")):
                return word
            bare = word.rstrip("'")
            new = word if word in kept else self.turned.get(word)
            if new is None and bare != word and bare not in kept and bare in self.turned:
                new = self.turned[bare] + word[len(bare):]
            if new is None or (only is not None and word not in only):
                return word
            return new

        return re.sub(rf"({NAME}) as \1(?={END})", r"\1", re.sub(NAME, one, text))

    def clauses(self, text, kept):
        out, at = [], 0
        for m in CLAUSE.finditer(text):
            if m.start() < at:
                continue
            end, depth = m.end(), 1
            while m[0].endswith("{") and end < len(text) and depth:
                depth += {"{": 1, "}": -1}.get(text[end], 0)
                end += 1
            out.append(self.words(text[at:m.start()], kept, old=True))
            out.append(self.words(text[m.start():end], kept))
            at = end
        out.append(self.words(text[at:], kept, old=True))
        return "".join(out)

    def code(self, path, text, quiet):
        kept = from_libraries(text)
        if re.search(r"/proofs/.+/", path):
            kept |= goals(text)
        own = set(re.findall(NAME, quiet.sub(" ", text)))
        for at in reversed(field_places(text, self.fields - kept) if quiet is ANTT else []):
            text = text[:at] + MARK + text[at:]
        out, at = [], 0
        # a function of code may be spelled as a lemma is: outside clauses no name turns but of the older spelling
        turn = (lambda part: self.clauses(part, kept)) if quiet is RUST else (lambda part: self.words(part, kept))
        for m in quiet.finditer(text):
            out.append(turn(text[at:m.start()]))
            said = m[0]
            if said.startswith(("--", "{-")):
                said = self.words(said, kept, own)
            elif said.startswith("//"):
                said = SPAN.sub(lambda s: self.words(s[0], kept), said)
            out.append(said)
            at = m.end()
        out.append(turn(text[at:]))
        new = {}
        for word in own:
            new.setdefault(self.words(word, kept), set()).add(word)
        self.clashes += [f"{path}: {' and '.join(sorted(olds))} would both be {it}" for it, olds in new.items() if len(olds) > 1 and not any(f"{a} as {b}" in text for a in olds for b in olds)]
        return "".join(out)

    def edit(self, root, path, text):
        out, kept = [], set()
        for line in text.split("\n"):
            if line.startswith("file:"):
                target = os.path.join(os.path.dirname(os.path.dirname(path)), line[5:].strip())
                kept = from_libraries(read(target)) if os.path.exists(target) else set()
            out.append(self.words(line, kept) if line.startswith(("old:", "new:")) else SPAN.sub(lambda s: self.words(s[0], kept), line))
        return "\n".join(out)

    def page(self, root, text):
        turn = lambda m: self.words(m[0], set())
        own = set()

        def span(m):
            """A span that is a field's name alone, behind the file that declares it."""
            nonlocal own
            path = os.path.join(root, "crates", m[0].strip("`"))
            if path.endswith(".antt") and os.path.exists(path):
                own = {name for name, _, _ in fields(blank(read(path)))} & self.fields
            return self.words(re.sub(rf"^`(?={NAME}`$)", "`" + MARK, m[0]) if m[0].strip("`") in own else m[0], set())

        text = FENCE.sub(turn, text)
        return INDENTED.sub(turn, SPAN.sub(span, text))


def main(argv):
    check = "--check" in argv
    rest = [a for a in argv if a != "--check"]
    root = rest[0] if rest else os.path.dirname(os.path.dirname(os.path.abspath(__file__)))
    turned = table(declared(root))
    turner = Turner({**{it: snake(it) for it in renamed(root)}, **turned}, all_fields(root))
    texts = {}
    for path in files(os.path.join(root, "crates"), ".antt", ".rt"):
        texts[path] = turner.code(path, read(path), ANTT if path.endswith(".antt") else RUST)
    for path in files(os.path.join(root, "crates"), ".edit"):
        texts[path] = turner.edit(root, path, read(path))
    for path in [os.path.join(root, "README.md")] + list(files(os.path.join(root, "docs"), ".md")):
        texts[path] = turner.page(root, read(path))
    for it in turner.clashes:
        print("clash: " + it)
    changed = [p for p, t in texts.items() if read(p) != t]
    print(f"{len(turner.turned)} names, {len(changed)} files, {len(turner.clashes)} clashes")
    if turner.clashes:
        return 1
    for path in [] if check else changed:
        with open(path, "w", encoding="utf-8") as f:
            f.write(texts[path])
    return 0


if __name__ == "__main__":
    raise SystemExit(main(sys.argv[1:]))
