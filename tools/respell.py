#!/usr/bin/env python3
"""Spells the repository's own definitions and lemmas in snake case: planWith becomes plan_with, word-switched becomes word_switched.

usage: python3 tools/respell.py        at the top, once, right after port.py

A name is the repository's own if a file of specs/ or proofs/ declares it. Names of types keep their capitals, and names that Rattle makes
of a function's code (returns, loop-init, shl-result) stay. A lemma that would have the name of a definition gets the ending _lem.
Pages and must-fail edits follow, also for the names that port.py has turned. Prints what fell together and the names that it turned.
"""

import collections
import os
import re
import sys

WORD = re.compile(r"[^\s(){}.;,@\"«»\x60]+")
DECLARED = re.compile(r"^( *)(?:(?:pub|abbrev|unfoldable)\s+)*([^\s:{}()|.,\"`]+)((?:\s*[({][^:]*?:.*?[)}])*)\s+:(?:\s|$)")
QUIET = re.compile(r'"(?:[^"\\\n]|\\.)*"|(?<![^\s(){}.;,@"«»])--[^\n]*|//[^\n]*', re.S)
ITEM = re.compile(r"\b(?:const|static|fn|mod|struct|enum)\s+(\w+)")


def snake(name):
    return re.sub(r"(?<=[a-z0-9])[A-Z]+", lambda m: "_" + m[0].lower(), name).replace("-", "_")


def is_made(name, path):
    """Whether a name in a function's own proof is one that Rattle asks for: those stay."""
    return "/proofs/" in path and path.count("/") > 3


def read(path):
    with open(path, encoding="utf-8") as f:
        return f.read()


def files(root, endings):
    for folder, dirs, names in os.walk(root):
        dirs[:] = sorted(d for d in dirs if d not in ("out", ".git", "target"))
        for name in sorted(names):
            if name.endswith(endings):
                yield os.path.join(folder, name)


def declarations():
    """Each own name with the places that declare it, and the names of fields and constructors."""
    found, fields = collections.defaultdict(set), set()
    for path in files("crates", ".antt"):
        inside = False
        for line in read(path).split("\n"):
            if re.match(r"^ *(?:pub )?(?:record|data) .*where$", line):
                inside = True
                continue
            inside = inside and bool(re.match(r"^ +\S", line))
            m = DECLARED.match(line)
            if m and not line.lstrip().startswith("--"):
                found[m[2]].add(path)
                if inside:
                    fields.add(m[2])
    return found, fields


def table(found, fields):
    rust = {name for path in files("crates", ".rt") for name in ITEM.findall(read(path))}
    texts = [set(WORD.findall(QUIET.sub(" ", read(path)))) for path in files("crates", (".antt", ".rt"))]
    groups = collections.defaultdict(set)
    for name, places in found.items():
        if re.match(r"[^A-Z+]", name) and "◌" not in name and not all(is_made(name, p) for p in places):
            groups[snake(name)].add(name)
    turned = {}
    for new, names in groups.items():
        # the definition has the name, a lemma of the same words the ending
        camels = [n for n in sorted(names) if re.search("[A-Z]", n)]
        first = camels[0] if camels else new if new in names else sorted(names)[0]
        taken = new in rust or any(new in words and first in words for words in texts)
        for name in sorted(names):
            lemma = name != first or (taken and new not in names and "-" in name and name not in fields)
            if lemma:
                print(f"falls together: {name} -> {new}_lem ({', '.join(sorted(names | {new} & rust))})")
            if lemma or name != new:
                turned[name] = new + "_lem" if lemma else new
    return turned


def turn_code(text, names, fields):
    """Behind a value, as in c.step, a name turns only if it is a field of a record: else it is a step that Rattle names."""
    aliases = {m[1] for m in re.finditer(r"(?m)^\s*(?:pub )?use \S+ as (\S+)$", text)}

    def turn(code):
        def whole(m):
            word, at = m[0], m.start()
            if word not in names:
                return word
            if at and code[at - 1] == ".":
                head = re.search(r"([^\s(){};,.@\"«»]*)\.$", code[:at])[1]
                if word not in fields and not (head[:1].isupper() or head in aliases):
                    return word
            return names[word]

        return WORD.sub(whole, code)

    out, at = [], 0
    for m in QUIET.finditer(text):
        out.append(turn(text[at : m.start()]))
        out.append(m[0] if m[0][0] == '"' else turn_prose(m[0], names))
        at = m.end()
    return "".join(out) + turn(text[at:])


def turn_prose(text, names):
    """Names in code spans, and bare words that are no English: those with a capital inside."""
    def span(m):
        return WORD.sub(lambda w: names.get(w[0], w[0]), m[0])

    text = re.sub(r"`[^`\n]*`", span, text)
    return re.sub(r"(?<![\w`.-])[a-z]+[a-z0-9]*[A-Z]\w*(?![\w-])", lambda m: names.get(m[0], m[0]), text)


def main():
    found, fields = declarations()
    names = table(found, fields)
    for path in list(files("crates", (".antt", ".rt"))):
        text = read(path)
        new = turn_code(text, names, fields)
        if new != text:
            with open(path, "w", encoding="utf-8") as f:
                f.write(new)
    # pages and edits may hold older spellings that port.py turned already
    final = set(declarations()[0])

    def older(word):
        if word in names:
            return names[word]
        return snake(word) if word not in final and re.match(r"[a-z]", word) and snake(word) in final and snake(word) != word else word
    for path in list(files("crates", ".edit")) + list(files("docs", ".md")) + ["README.md"]:
        text = read(path)
        if path.endswith(".edit"):
            new = WORD.sub(lambda m: older(m[0]), text)
        else:
            new = re.sub(r"`[^`\n]*`", lambda s: WORD.sub(lambda m: older(m[0]), s[0]), text)
        if new != text:
            with open(path, "w", encoding="utf-8") as f:
                f.write(new)
    print(f"{len(names)} names turned")


if __name__ == "__main__":
    sys.exit(main())
