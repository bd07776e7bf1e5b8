#!/usr/bin/env python3
"""Spells the repository's own definitions, lemmas, fields and constructors in snake case, in every crate.

usage: tools/respell.py [--list] [--docs] FOLDER

FOLDER is the top of the repository. The names are those that the files of specs/ and proofs/ declare: a capital inside a
name that begins with a small letter gets an underscore before it, and so does each dash. Types, modules, labels that
Rattle makes, functions of src/, strings and stdin/stdout files stay. Edits of must-fail/ follow. --docs turns, in
README.md and docs/*.md, the names that stand in backticks. --list prints the names and writes nothing. A name that would meet another in
a file is printed behind 'meets:'.
"""

import os
import re
import sys

NAME = r"[^\s(){}.;,@\"«»\[\]`]+"
TOKEN = re.compile(r"--[^\n]*|\"(?:[^\"\\]|\\.)*\"|" + NAME)
RUST = re.compile(r"//[^\n]*|b?\"(?:[^\"\\]|\\.)*\"|'(?:\\.|[^\\'])'|[A-Za-z_][\w]*")
CLAUSE = re.compile(r"(?:requires|ensures|ghost|descends|measured)\b[^{;]*\{|ghost use [^;]*;")
DECLARED = re.compile(r"^ *(?:(?:abbrev|unfoldable|pub|private|opaque|instance|irreducible) )*(" + NAME + r")(?: \{[^{}\n]*\})* :(?![:=])")
FIELD_HEAD = re.compile(r"^ *(?:pub )?(" + NAME + r") :(?![:=])")


def texts(top, endings):
    for folder, dirs, files in os.walk(os.path.join(top, "crates")):
        dirs[:] = sorted(d for d in dirs if d not in ("out", ".git"))
        for name in sorted(files):
            if name.endswith(endings):
                yield os.path.join(folder, name)


def read(path):
    with open(path, encoding="utf-8") as it:
        return it.read()


def respelled(name):
    if not name[0].islower():
        return name.replace("-", "_") if re.fullmatch(r"[A-Za-z0-9_'-]+", name) and "-" in name else name
    words = re.sub(r"(?<=[a-z0-9])[A-Z]", lambda m: "_" + m[0].lower(), name)
    words = re.sub(r"_([a-z])([A-Z]+)", lambda m: "_" + m[1] + m[2].lower(), words)
    return words.replace("-", "_")


def declared(top):
    """The names that the files of specs/ and the lemma files and proofs declare, each with its new spelling."""
    found, every, lemmas = {}, set(), set()
    for path in texts(top, ".antt"):
        text = read(path)
        for line in text.split("\n"):
            if line.lstrip().startswith("--"):
                continue
            m = DECLARED.match(line)
            if not m:
                continue
            name = m[1]
            if name in ("_", "→", "where", "in", "let") or not re.match(r"[A-Za-z]", name):
                continue
            if path.endswith("/Proof.antt") and re.search(r" : (tie|lts)\.", line):
                continue
            every.add(name)
            if "/proofs/" in path and not path.endswith("/Proof.antt"):
                lemmas.add(name)
            new = respelled(name)
            if new != name:
                found[name] = new
    # A lemma whose words would be those of a definition keeps its dashes, or gets them back.
    definitions = {new for name, new in found.items() if "-" not in name}
    words = every | definitions
    names = {name: new for name, new in found.items() if "-" not in name or new not in words}
    names.update({name: name.replace("_", "-") for name in lemmas & definitions})
    return names


LIBRARY = re.compile(r"(?m)^ *(?:ghost )?use ((?!Rattle\.)\S+?|Rattle\.(?:core|std\w*|io|os|libc)\.\S+?)\.\{([^}]*)\}")


def borrowed(text):
    """The names that a file takes from a library: they stay."""
    return {w.strip().split(" as ")[0] for m in LIBRARY.finditer(text) for w in m[2].split(",")}


def is_made(name):
    """A label that Rattle makes, which proofs answer under its own name."""
    return bool(re.fullmatch(r"(returns|loop|invariant|decreases|overflow|bounds|slice|offset)[-\d]*(-.*)?", name))


def turned(token, names):
    return names.get(token, token)


def in_antt(text, names):
    def of(m):
        if m[0].startswith("--"):
            return re.sub(r"`[^`\n]*`", lambda b: in_words(b[0], names), m[0])
        return m[0] if m[0].startswith('"') or is_step(text, m) else turned(m[0], names)
    return TOKEN.sub(of, text)


def is_step(text, m):
    """A word with underscores beside a dot is a function of src/ in a path, or a step."""
    return "_" in m[0] and (text[m.start() - 1 : m.start()] == "." or text[m.end() : m.end() + 1] == ".")


def in_words(text, names):
    return re.sub(NAME, lambda m: turned(m[0], names), text)


def clauses(text):
    """The stretches of a .rt file that are written in antt: ghost items, clauses."""
    for m in CLAUSE.finditer(text):
        if m[0].endswith(";"):
            yield m.start(), m.end()
            continue
        depth, at = 1, m.end()
        while depth and at < len(text):
            depth += (text[at] == "{") - (text[at] == "}")
            at += 1
        yield m.start(), at


def in_rust(text, names):
    names = {a: b for a, b in names.items() if "-" not in b}
    out, last = [], 0
    for start, end in clauses(text):
        if start < last:
            continue
        out += [in_code(text[last:start], names), in_antt(text[start:end], names)]
        last = end
    out.append(in_code(text[last:], names))
    return "".join(out)


def in_code(text, names):
    """Comments alone: what stands in backticks there, and words with a capital inside."""
    def of(m):
        if not m[0].startswith("//"):
            return m[0]
        said = re.sub(r"`[^`\n]*`", lambda b: in_words(b[0], names), m[0])
        return re.sub(r"(?<![\w.-])[a-z]+[A-Z]\w*(?![\w-])", lambda w: turned(w[0], names), said)
    return RUST.sub(of, text)


def in_edit(text, names):
    out = []
    for line in text.split("\n"):
        head = re.match(r"(old|new): ?", line)
        out.append(line if not head else head[0] + in_antt(line[head.end():], names))
    return "\n".join(out)


def in_page(text, names):
    return re.sub(r"`[^`\n]*`", lambda b: in_words(b[0], names), text)


def meetings(top, names):
    """Files in which a new spelling stands already beside the old one, or in which two names get one spelling."""
    for path in texts(top, ".antt"):
        seen = {}
        kept = borrowed(read(path))
        if kept & set(names):
            print(f"borrowed: {os.path.relpath(path, top)}: {' '.join(sorted(kept & set(names)))}")
        words = {m[0] for m in TOKEN.finditer(read(path))}
        for word in words:
            if word not in kept:
                seen.setdefault(names.get(word, word), set()).add(word)
        for new, olds in sorted(seen.items()):
            if len(olds) > 1:
                yield path, new, sorted(olds)


SIGNATURE = re.compile(r"\bfn (\w+)[^{;]*?(?=\brequires|\bensures)((?:[^{}]|\{[^{}]*\})*?)(?=\n\{)")


def captures(top, names):
    """Clauses in which the new spelling of a definition is that of a parameter."""
    for path in texts(top, ".rt"):
        for m in SIGNATURE.finditer(read(path)):
            bound = set(re.findall(r"\b(\w+):", m[0][: m[0].find(m[2])]))
            for token in {x[0] for x in TOKEN.finditer(m[2])}:
                if names.get(token, "") in bound:
                    yield path, m[1], token


def main(argv):
    flags = {a for a in argv if a.startswith("--")}
    top = [a for a in argv if not a.startswith("--")][0]
    names = {a: b for a, b in declared(top).items() if not is_made(a)}
    if "--list" in flags:
        for a, b in sorted(names.items()):
            print(f"{a}\t{b}")
        for path, new, olds in meetings(top, names):
            print(f"meets: {os.path.relpath(path, top)}: {new}: {' '.join(olds)}")
        for path, function, name in captures(top, names):
            print(f"captured: {os.path.relpath(path, top)}: {function}: {name}")
        return 0
    if "--docs" in flags:
        pages = [os.path.join(top, "README.md")] + sorted(os.path.join(top, "docs", f) for f in os.listdir(os.path.join(top, "docs")) if f.endswith(".md") and not f.startswith("PORT"))
        for path in pages:
            text = read(path)
            with open(path, "w", encoding="utf-8") as it:
                it.write(in_page(text, names))
        return 0
    for path in list(texts(top, (".antt", ".rt", ".edit"))):
        text = read(path)
        own = {a: b for a, b in names.items() if a not in borrowed(text)}
        new = in_antt(text, own) if path.endswith(".antt") else in_rust(text, own) if path.endswith(".rt") else in_edit(text, own)
        if new != text:
            with open(path, "w", encoding="utf-8") as it:
                it.write(new)
    return 0


if __name__ == "__main__":
    raise SystemExit(main(sys.argv[1:]))
