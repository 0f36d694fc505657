#!/usr/bin/env python3
"""Spells the repository's own definitions and lemmas as Rattle spells names: words in snake case, types and facts in camel case.

usage: python3 tools/respell.py            at the top of the repository, once, after the kit's own script for older repositories

It turns the names that files of specs/ and proofs/ declare, wherever these files, the clauses of src/, the must-fail edits and the code spans of comments
and pages have them. Functions of src/ keep their names, and so do labels that Rattle makes. Where two names would fall together in a file, the
lemma gets '_holds' at its end. It prints each name that changed, and proves nothing.
"""

import collections
import glob
import re

WORD = re.compile(r'[^\s(){}.;,@"«»]+')
DECLARED = re.compile(
    r"^( *)(?:(?:pub|abbrev|unfoldable|record|data|constructor|ruleset) )*([^\s(){}.;,@\"«»:]+)"
    r"(?: (?:\{[^{}\n]*\}|\([^()\n]*(?:\([^()\n]*\)[^()\n]*)*\)))* :(?= |$)",
    re.M,
)
QUIET = re.compile(r'(?<![^\s(){}.;,@"«»])--[^\n]*|"(?:[^"\\\n]|\\.)*"|\{-.*?-\}', re.S)
SPAN = re.compile(r"`[^`\n]*`")
BINDER = re.compile(r"[a-z][a-z0-9]*(?:[A-Z][a-z0-9]*)+[₀-₉']*")
ALIAS = re.compile(r"^use (\S+) as (\S+)", re.M)


def read(path):
    with open(path, encoding="utf-8") as f:
        return f.read()


def write(path, text):
    with open(path, "w", encoding="utf-8") as f:
        f.write(text)


def antt_files():
    return sorted(glob.glob("crates/*/specs/**/*.antt", recursive=True) + glob.glob("crates/*/proofs/**/*.antt", recursive=True))


def spelled(name):
    if name[0].isupper():
        return name.replace("-", "_")
    # a capital behind a small letter begins a word
    words = re.sub(r"(?<=[a-z0-9])([A-Z])", lambda m: "_" + m[1].lower(), name)
    return words.replace("-", "_")


def table(files, texts):
    """The names that change, each with its new spelling, and those that are a record's fields or a type's constructors."""
    declared, inner = set(), set()
    for f in files:
        for m in DECLARED.finditer(texts[f]):
            line = texts[f][m.start() : texts[f].find("\n", m.start())]
            if not re.search(r": (tie|goal)\.", line):
                declared.add(m[2])
                if m[1]:
                    inner.add(m[2])
    declared = {n for n in declared if re.match("[A-Za-z]", n)}
    rename = {n: spelled(n) for n in declared if spelled(n) != n}
    meets = collections.defaultdict(set)
    for n in declared:
        meets[rename.get(n, n)].add(n)
    words = {f: set(WORD.findall(texts[f])) for f in files}
    rank = lambda n: (0 if re.search("[a-z0-9][A-Z]", n) else 1 if "-" not in n else 2, n)
    for new, olds in sorted(meets.items()):
        if len(olds) > 1 and any(len(olds & w) > 1 for w in words.values()):
            for lower in sorted(olds, key=rank)[1:]:
                rename[lower] = new + "_holds"
    return rename, inner


def turn(text, rename, inner, aliases, keep=()):
    def one(m):
        word, at = m[0], m.start()
        if word not in rename or word in keep:
            return word
        if at and text[at - 1] == ".":
            head = re.search(r"([^\s(){}.;,@\"«»]+)\.$", text[max(0, at - 80) : at])
            if head and head[1] == "Rattle":
                return word
            if word not in inner and not (head and (head[1] in aliases or head[1][0].isupper())):
                return word
        return rename[word]

    return WORD.sub(lambda m: BINDER.fullmatch(m[0]) and m[0] not in rename and m[0] not in keep and spelled(m[0]) or one(m), text)


def turn_antt(text, rename, inner):
    aliases = {a for path, a in ALIAS.findall(text) if not path.endswith((".Tie", ".Goals", ".Given"))}
    keep = borrowed(text)
    keep |= {n for n in rename if is_plain(n)} - {m[2] for m in DECLARED.finditer(text)} - own_imports(text)
    out, at = [], 0
    for m in QUIET.finditer(text):
        out += [turn(text[at : m.start()], rename, inner, aliases, keep), spans(m[0], rename, inner) if m[0].startswith("--") else m[0]]
        at = m.end()
    return "".join(out) + turn(text[at:], rename, inner, aliases, keep)


def is_plain(name):
    return not re.search("-|[a-z0-9][A-Z]", name)


def imports(text, of_library):
    names = set()
    for path, items in re.findall(r"^(?:pub )?use ([^\s{]+)\.\{([^}]*)\}", text, re.M):
        if bool(re.match(r"Rattle\.(?!std\b)", path)) != of_library:
            names |= set(WORD.findall(items))
    return names


def borrowed(text):
    """The names that a file takes from a library."""
    return imports(text, True)


def own_imports(text):
    return imports(text, False)


def spans(text, rename, inner):
    keep = {n for n in rename if is_plain(n)}
    return SPAN.sub(lambda s: turn(s[0].replace("`", " ` "), rename, inner, set(), keep).replace(" ` ", "`"), text)


def ghost_parts(text):
    """The places of clauses and of ghost use lines in a source file."""
    for m in re.finditer(r"^ghost use [^;]*;", text, re.M):
        yield m.start(), m.end()
    for m in re.finditer(r"^\s*(?:requires|ensures|ghost)\*? *(?:\w+ *:? *)?\{", text, re.M):
        depth, i = 1, m.end()
        while depth:
            depth += {"{": 1, "}": -1}.get(text[i], 0)
            i += 1
        yield m.end(), i


def turn_source(text, rename, inner):
    out, at = [], 0
    for a, b in sorted(ghost_parts(text)):
        if a < at:
            continue
        out += [comments(text[at:a], rename, inner), turn(text[a:b], rename, inner, {"model"})]
        at = b
    return "".join(out) + comments(text[at:], rename, inner)


def comments(text, rename, inner):
    return re.sub(r"//[^\n]*", lambda m: spans(m[0], rename, inner), text)


def turn_edit(text, rename, inner):
    file = re.search(r"^file: (.*)$", text, re.M)[1]
    if file.endswith(".antt"):
        return re.sub(r"^(old: |new: )(.*)$", lambda m: m[1] + turn(m[2], rename, inner, {"model"}), text, flags=re.M)
    return re.sub(r"^(old: |new: )( *(?:requires|ensures).*)$", lambda m: m[1] + turn(m[2], rename, inner, {"model"}), text, flags=re.M)


def main():
    files = antt_files()
    texts = {f: read(f) for f in files}
    rename, inner = table(files, texts)
    for f in files:
        write(f, turn_antt(texts[f], rename, inner))
    for f in glob.glob("crates/*/src/**/*.rt", recursive=True):
        write(f, turn_source(read(f), rename, inner))
    for f in glob.glob("crates/*/must-fail/*.edit"):
        write(f, turn_edit(read(f), rename, inner))
    for f in glob.glob("docs/*.md") + glob.glob("*.md"):
        write(f, spans(read(f), rename, inner))
    for old, new in sorted(rename.items()):
        print(old, new)


if __name__ == "__main__":
    main()
