#!/usr/bin/env python3
"""Respells this repository's own definitions and lemmas as the language's guide for names asks: types in upper camel case,
everything else in snake case. Run it once, at the top, after the toolchain's own script that brings an older repository over.

    python3 tools/respell.py            rewrites .antt files, clauses and ghost lines of .rt files, and the names in docs and tests
    python3 tools/respell.py --list     prints each old name with its new one, and writes nothing

A name is turned where the repository declares it in specs/ or in a file right in proofs/. Names that come from the toolchain's
library keep their spelling, and so do strings, comments outside backticks and the code of src/. Names that would fall together stop it.
"""

import os
import re
import sys

TOKEN = re.compile(r"[^\s(){}\[\],;.:`\"|]+")
DECLARED = re.compile(r"^\s*(?:(?:pub|abbrev|unfoldable)\s+)*(?:(data|record|ruleset|module)\s+(?:pub\s+)?)?((?:[^\s(){}\[\],;.:\"]+\s+)*[^\s(){}\[\],;.:\"]+)\s*(\(|\{|:|$)")
USE = re.compile(r"^\s*(?:pub )?(?:ghost )?use ([^;{\n]+)\.\{([^}]*)\}", re.M)
MADE = ("Tie", "Goals", "Given", "Reads", "Statement", "Lts")


def walk(root, *endings):
    for folder, inner, names in os.walk(root):
        inner[:] = sorted(x for x in inner if x not in ("out", ".git", "build", "target"))
        for name in sorted(names):
            if name.endswith(endings):
                yield os.path.join(folder, name)


def of_function(path):
    return re.search(r"/proofs/.+/", path) is not None


def names_of(own):
    """Names that the repository declares with a dash, and those that it imports from the library."""
    declared, library, plain = {}, set(), {}
    for path in walk("crates", ".antt", ".rt"):
        text = open(path, encoding="utf-8").read()
        for where, names in USE.findall(text):
            parts = where.split(".")
            mine = parts[0] == "Rattle" and len(parts) > 1 and parts[1] in own
            if not mine or parts[-1] in MADE:
                library |= {n.strip().split(" as ")[0] for n in names.split(",")}
        if path.endswith(".rt") or of_function(path):
            continue
        for line in text.split("\n"):
            bare = line.strip()
            if bare.startswith(("--", "use ", "pub use ", "unfolding ", "unfolding\n", "open ")):
                continue
            found = DECLARED.match(line)
            if not found:
                continue
            kind, several, end = found.groups()
            if not kind and end != ":":
                continue
            for name in several.split():
                into = declared if "-" in name and re.search(r"[A-Za-z]", name) else plain
                into.setdefault(name, set()).add(path)
    return declared, library, plain


def respelled(name):
    if re.match(r"[A-Z]", name):
        return "".join(part[:1].upper() + part[1:] for part in name.split("-"))
    return name.replace("-", "_")


def main():
    own = set(os.listdir("crates"))
    declared, library, plain = names_of(own)
    turn = {n: respelled(n) for n in declared if n not in library}
    # Names that would fall together with another that is declared: the new one gets a prime's word, `_too`.
    for old in sorted(turn):
        new = turn[old]
        clash = [p for p in plain.get(new, ()) if p in declared[old]] or [o for o in turn if o != old and turn[o] == new]
        if clash:
            print(f"falls together: {old} -> {new}: {clash[:3]}", file=sys.stderr)
        elif new in plain:
            print(f"declared elsewhere: {old} -> {new}: {sorted(declared[old])[:2]} {sorted(plain[new])[:2]}", file=sys.stderr)
        elif new in library:
            print(f"in the library: {old} -> {new}: {sorted(declared[old])[:2]}", file=sys.stderr)
    if "--list" in sys.argv:
        for old in sorted(turn):
            print(old, turn[old])
        return

    def word(found):
        return turn.get(found.group(0), found.group(0))

    def quoted(found):
        return "`" + TOKEN.sub(word, found.group(1)) + "`"

    def in_proof(text):
        """A function's proof: what it imports from this repository's files is turned, and what it declares itself is not."""
        known = set()
        for where, names in USE.findall(text):
            parts = where.split(".")
            if parts[0] == "Rattle" and parts[1] in own and parts[-1] not in MADE:
                for n in names.split(","):
                    known |= set(n.strip().split(" as "))
        here = set(re.findall(r"^(?:abbrev |pub )*([^\s(){}\[\],;.:]+) :", text, re.M)) - known

        def one(found):
            name, before = found.group(0), text[max(0, found.start() - 1) : found.start()]
            if name not in turn or name in here:
                return name
            if before == "." and name not in fields:
                return name
            return turn[name]

        return TOKEN.sub(one, text)

    fields = set()
    for path in walk("crates", ".antt"):
        if not of_function(path):
            inside = False
            for line in open(path, encoding="utf-8").read().split("\n"):
                if re.match(r"^\s*(?:abbrev |pub )*record ", line):
                    inside = True
                elif inside and re.match(r"^\s+(?:pub )?[^\s(){}\[\],;.:]+(?: [^\s(){}\[\],;.:]+)* :", line):
                    fields |= set(re.match(r"^\s+(?:pub )?((?:[^\s(){}\[\],;.:]+ )+):", line).group(1).split())
                elif inside and line.strip() and not line.startswith("  "):
                    inside = False

    changed = 0
    for path in list(walk("crates", ".antt", ".rt", ".edit")) + list(walk("docs", ".md")):
        text = open(path, encoding="utf-8").read()
        lines = []
        if path.endswith(".antt") and of_function(path):
            new = in_proof(text)
        else:
            for line in text.split("\n"):
                if path.endswith(".md"):
                    line = re.sub(r"`([^`\n]+)`", quoted, line)
                elif path.endswith(".edit") and not line.startswith(("old:", "new:")):
                    pass
                else:
                    mark = "--" if path.endswith(".antt") else "//"
                    strings = path.endswith(".rt")
                    at = re.search(r"(?:^|\s)" + re.escape(mark) + r"(?:\s|$)", line)
                    code, comment = (line[: at.start()], line[at.start() :]) if at else (line, "")
                    if strings and '"' in code:
                        parts = re.split(r'("(?:[^"\\]|\\.)*")', code)
                        code = "".join(p if p.startswith('"') else TOKEN.sub(word, p) for p in parts)
                    else:
                        code = TOKEN.sub(word, code)
                    line = code + re.sub(r"`([^`\n]+)`", quoted, comment)
                lines.append(line)
            new = "\n".join(lines)
        if new != text:
            open(path, "w", encoding="utf-8").write(new)
            changed += 1
    print(f"respelled {len(turn)} names in {changed} files")


main()
