#!/usr/bin/env python3
"""Spells this repository's own definitions and lemmas in snake case, as today's Rattle does: sameBytes is same_bytes, order-less is order_less.

usage: tools/respell.py        at the top of the repository, once, right after the kit's port.py

What turns: each name that a file of crates/*/specs or crates/*/proofs/*.antt declares and that begins with a small letter; types and facts keep their
capital, and a name from a library, of the Rust, in a string or of a generated field stays. Where a lemma would meet a definition it gets _lem (sameBytes
and same-bytes are same_bytes and same_bytes_lem). It turns .antt and .rt files, must-fail edits, and the code spans of the pages.
"""
import collections
import glob
import re
import subprocess
import sys

WORD = r"[^\s(){}.;,@\"«»]+"
DECLARED = re.compile(r"(?m)^( *)((?:abbrev |unfoldable |pub |private |opaque )*)(" + WORD + r")(?: \{[^{}\n]*\})* :(?= |$)")
USE = re.compile(r"(?m)^(?:pub )?(?:ghost )?use ([^\s;{]+?)\.?\{([^}]*)\}")
TOKEN = re.compile(r'"(?:[^"\\\n]|\\.)*"|(?<![^\s(){}.;,@"«»])--[^\n]*|«[^»]*»|' + WORD)
SPAN = re.compile(r"`[^`\n]+`")
FENCE = re.compile(r"(?ms)^( *)```[^\n]*\n.*?^\1``` *$|^    \S[^\n]*$")
HOLDERS = {"c", "goal", "tie", "g", "w", "κs"}


def snake(name):
    return re.sub(r"(?<=[a-z0-9])[A-Z]", lambda m: "_" + m[0].lower(), name).replace("-", "_")


def read(path):
    with open(path, encoding="utf-8", newline="") as it:
        return it.read()


def write(path, text):
    with open(path, "w", encoding="utf-8", newline="") as it:
        it.write(text)


def own_crates():
    return {p.split("/")[1] for p in glob.glob("crates/*/src")}


def declarations(texts):
    """Each declared name, with the kinds of files that declare it: 'spec' or 'proof', and 'field' for a field of a record."""
    found = collections.defaultdict(set)
    for path, text in texts.items():
        if not re.fullmatch(r"crates/\w+/(specs|proofs)/[^/]+\.antt", path):
            continue
        kind = "spec" if "/specs/" in path else "proof"
        bare = re.sub(r"(?m)(?<![^\s(){}.;,@\"«»])--.*$", "", text)
        inside = None
        for line in bare.split("\n"):
            head = re.match(r"(?:abbrev |unfoldable |pub |private )*(record|data|class)\b", line)
            if head:
                inside = head[1]
            elif line and not line[0].isspace():
                inside = None
            m = DECLARED.match(line)
            if m:
                found[m[3]].add(kind)
                if inside == "record" and m[1]:
                    found[m[3]].add("field")
            for alias in re.findall(r"(?:^use |[{,] ?)[^{},;]*? ?as ([a-z]" + WORD + r"?)(?=[},])", line) if line.startswith(("use ", "pub use ")) else []:
                found[alias].add(kind)
            if not m and inside == "record":
                # several fields of one type stand on one line
                several = re.match(r"^ +(?:pub )?((?:" + WORD + r" )+): ", line)
                for name in several[1].split() if several else []:
                    found[name].update((kind, "field"))
    return found


def renamings(found):
    """Old and new spelling of each name that turns."""
    turn = {}
    for name in sorted(found):
        if name[0].isupper() or "◌" in name or not re.fullmatch(r"[a-z].*", name):
            continue
        new = snake(name)
        if new != name:
            turn[name] = new
    return turn


def apart(turn, found):
    """Names that would fall together: the definition has the plain spelling, the lemma gets _lem."""
    to = collections.defaultdict(list)
    for name in found:
        to[turn.get(name, name)].append(name)
    for new, olds in to.items():
        if len(olds) < 2:
            continue
        specs = [o for o in olds if "spec" in found[o]]
        rest = [o for o in olds if "spec" not in found[o]]
        keep = specs or rest[:1]
        if len(keep) > 1:
            print(f"left: {' and '.join(keep)} would both be {new}")
            for o in keep[1:]:
                turn.pop(o, None)
        for o in rest:
            if o not in keep:
                turn[o] = new + "_lem"
                if turn[o] in found:
                    print(f"left: {o} would be {turn[o]}, which is there")
    return turn


def by_the_kit(texts):
    """Old and new spelling of each name that port.py turned before: the files of the last commit say how it was spelled."""
    turn = {}
    for path, text in texts.items():
        if not re.fullmatch(r"crates/\w+/(specs|proofs)/[^/]+\.antt", path):
            continue
        old = subprocess.run(["git", "show", "HEAD:" + path], capture_output=True, text=True, check=False).stdout
        olds, news = ([m[3] for m in DECLARED.finditer(it)] for it in (old, text))
        if len(olds) == len(news):
            turn.update((o, n) for o, n in zip(olds, news) if o != n and o[0].islower())
    return turn


def foreign(text, own):
    """Names that a file imports from a library."""
    names = set()
    for path, items in USE.findall(text):
        steps = path.split(".")
        if steps[0] == "Rattle" and len(steps) > 1 and steps[1] in own:
            continue
        for item in items.split(","):
            words = item.split()
            if words:
                names.add(words[-1])
                names.add(words[0])
    return names


def turned_antt(text, turn, fields, skip):
    def one(m):
        t = m[0]
        if t.startswith('"') or t.startswith("«"):
            return t
        if t.startswith("--"):
            return turned_prose(t, turn, skip, camel_outside=True)
        if t in skip or t not in turn:
            return t
        if turn[t] in skip:
            # the file has that name from a library
            return turn[t] + "_lem"
        if m.start() and text[m.start() - 1] == ".":
            before = re.search(r"([^\s(){};,@\"«»]*)\.$", text[: m.start()])[1]
            head = before.split(".")[0]
            # behind a dot stands a field, or a name of a module
            if not (head[:1].isupper() or t in fields):
                return t
            if head in HOLDERS and t not in fields:
                return t
        return turn[t]

    return TOKEN.sub(one, text)


def turned_prose(text, turn, skip, camel_outside):
    def word(m):
        t = m[0]
        return turn[t] if t in turn and t not in skip else t

    part = re.compile(r"[^\s(){}.;,@\"«»`/:]+")
    text = SPAN.sub(lambda m: part.sub(word, m[0]), text)
    if camel_outside:
        text = re.sub(r"\b[a-z]+[a-z0-9]*[A-Z]\w*\b", word, text)
    return text


def turned_rt(text, turn, skip):
    """Names of definitions in capitals inside a word stand in clauses, ghost items and comments alone."""

    def one(m):
        t = m[0]
        return turn[t] if t in turn and t not in skip else t

    return re.sub(r"\"(?:[^\"\\\n]|\\.)*\"|\b[a-z]+[a-z0-9]*[A-Z]\w*'*", one, text)


def main():
    """Turns the files of the folder."""
    own = own_crates()
    texts = {p: read(p) for p in glob.glob("crates/**/*.antt", recursive=True) + glob.glob("crates/**/*.rt", recursive=True) if "/out/" not in p}
    found = declarations(texts)
    turn = apart(renamings(found), found)
    fields = {n for n in turn if "field" in found[n]}
    news = set(turn.values())
    for path, text in sorted(texts.items()):
        skip = foreign(text, own)
        words = set(TOKEN.findall(text))
        for new in sorted(news & words):
            if any(o in words for o in turn if turn[o] == new) and new not in found:
                print(f"look: {path}: {new} stands there already")
        new = turned_antt(text, turn, fields, skip) if path.endswith(".antt") else turned_rt(text, turn, skip)
        if new != text:
            write(path, new)
    before = {o: turn.get(n, n) for o, n in by_the_kit(texts).items() if o not in turn}
    print(f"respell: {len(before)} names that port.py turned, for edits and pages")
    turn = {**before, **turn}
    for path in sorted(glob.glob("crates/*/must-fail/*.edit")):
        text = read(path)
        lines = []
        of = re.search(r"(?m)^file: (\S+)", text)[1]
        for line in text.split("\n"):
            if line.startswith("file: "):
                of = line[6:]
            elif line.startswith(("old: ", "new: ")):
                line = turned_antt(line, turn, fields, set()) if of.endswith(".antt") else turned_rt(line, turn, set())
            lines.append(line)
        if "\n".join(lines) != text:
            write(path, "\n".join(lines))
    for path in sorted(glob.glob("docs/*.md") + glob.glob("*.md") + glob.glob("tools/*.md") + glob.glob("compare/*.md")):
        text = read(path)
        new = FENCE.sub(lambda m: re.sub(r"[^\s(){}.;,@\"«»`/:]+", lambda w: turn.get(w[0], w[0]), m[0]), text)
        new = turned_prose(new, turn, set(), camel_outside=True)
        if new != text:
            write(path, new)
    print(f"respell: {len(turn)} names")
    if "--table" in sys.argv:
        for o in sorted(turn):
            print(f"{o}\t{turn[o]}")


if __name__ == "__main__":
    main()
