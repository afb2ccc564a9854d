#!/usr/bin/env python3
"""Brings the repository's own names of definitions and lemmas to snake case: literal-type becomes literal_type.

Run once, at the top of the repository, after the kit's port.py. Names that come from the library or are made by the check keep their spelling,
and so do names of functions in src/. In a file only those names turn that it declares, or imports from a crate of the repository, or that are
fields of the repository's records. Must-fail edits and the words of docs/ and README.md that stand in backticks turn with them.
It says which names of a module would fall together, and writes nothing then.
"""

import os
import re
import sys

ROOT = os.getcwd()
NAMES = re.compile(r"[^\s(){}\[\],.;:«»\"`=]+")
NAME = re.compile(r"(?<![\w'₀-₉])(?:\w[\w'₀-₉]*)(?:-[\w'₀-₉*+≤<≡]+)+")
OWN_USE = re.compile(r"^ *(?:pub |ghost )*use (Rattle\.[\w.+]+)\.\{([^}]*)\}", re.M)


def crates():
    with open(os.path.join(ROOT, "crates.txt"), encoding="utf-8") as f:
        lines = [line.split("#")[0].strip() for line in f]
    return {line.split(":")[0].split()[0] for line in lines if line}


def files(ends):
    for folder, dirs, names in os.walk(os.path.join(ROOT, "crates")):
        dirs[:] = sorted(d for d in dirs if d != "out")
        for name in sorted(names):
            if name.endswith(ends):
                yield os.path.join(folder, name)


def is_function_proof(path):
    return path.endswith("/Proof.antt") or "/Proof/" in path


def snake(name):
    return name.replace("-", "_")


def code_of(text):
    """The text without comments."""
    return re.sub(r"(?m)--.*$", "", text)


def declared(text):
    """The dashed names that a file declares: definitions, constructors, fields, with the indent of each."""
    found = []
    block = None
    for line in code_of(text).split("\n"):
        if not line.strip() or line.lstrip().startswith(("use ", "pub use ", "let ", "in ", "→", "λ", "(", "{", "unfolding ")):
            continue
        indent = len(line) - len(line.lstrip())
        head = re.match(r"^ *(?:abbrev |unfoldable |pub )*(data|record|mutual)(?=\s|$) *(\S*)", line)
        if head:
            block = (head.group(1), indent)
            if head.group(2) and "-" in head.group(2):
                found.append((head.group(2), "top"))
            continue
        if block and indent <= block[1]:
            block = None
        before, colon, _ = line.partition(" :")
        names = [n for n in before.split() if n not in ("abbrev", "unfoldable", "pub")] if colon else []
        typed = names and all(NAMES.fullmatch(n) for n in names)
        if typed and (indent <= 2 or block or line.lstrip().startswith(("pub ", "abbrev ", "unfoldable "))):
            kind = "field" if block and block[0] == "record" else "top"
            for name in names:
                if "-" in name[1:] and "=" not in name:
                    found.append((name, kind))
    return found


def main():
    own = crates()
    modules = {}
    fields = set()
    texts = {}
    for path in files((".antt",)):
        with open(path, encoding="utf-8") as f:
            texts[path] = f.read()
        names = declared(texts[path])
        modules[path] = {n for n, k in names if k == "top"}
        fields |= {n for n, k in names if k == "field"}
    for path in files((".rt", ".edit")):
        with open(path, encoding="utf-8") as f:
            texts[path] = f.read()

    def imported(text):
        names = set()
        for use in OWN_USE.finditer(text):
            parts = use.group(1).split(".")
            if parts[1] not in own or parts[-1] in ("Tie", "Lts", "Statement", "Goals", "Given"):
                continue
            for item in use.group(2).split(","):
                for name in item.split(" as "):
                    if "-" in name.strip()[1:]:
                        names.add(name.strip())
        return names

    def path_of(use):
        parts = use.split(".")
        folder = os.path.join(ROOT, "crates", parts[1], *parts[2:])
        return folder + ".antt"

    bad = 0
    # A function's own proof keeps what the check calls by its goals: only names of lemmas and definitions turn there.
    top = {p: ({n for n in modules[p]} if not is_function_proof(p) else set()) for p in modules}
    everything = set().union(*top.values()) | fields
    print(f"respell: {len(everything)} names")
    for path in list(modules):
        names = [n for n, k in declared(texts[path])]
        plain = set(re.findall(r"(?m)^ *(?:abbrev |unfoldable |pub )*([^\s(){}:]+) :", code_of(texts[path])))
        if is_function_proof(path):
            continue
        for n in set(names):
            if snake(n) in plain and snake(n) != n:
                print(f"respell: {os.path.relpath(path, ROOT)}: {n} and {snake(n)} would fall together")
                bad = 1
    for path, text in texts.items():
        uses = imported(text)
        here = top.get(path, set()) | uses
        if path.endswith(".edit"):
            here = everything
        library = set()
        for use in re.finditer(r"^ *(?:pub |ghost )*use ([\w.+◌-]+)\.\{([^}]*)\}", text, re.M):
            if use.group(1).split(".")[0] != "Rattle" or use.group(1).split(".")[1] not in own:
                library |= {i.split(" as ")[-1].strip() for i in use.group(2).split(",")}
        both = here & library
        for name in sorted(both):
            print(f"respell: {os.path.relpath(path, ROOT)}: {name} is the library's and the repository's")
        taken = {m for m in re.findall(r"[\w'₀-₉-]+", text)}
        for name in sorted(here - library):
            if snake(name) in taken and name in taken:
                print(f"look: {os.path.relpath(path, ROOT)}: {name} beside {snake(name)}")
        proof = is_function_proof(path)

        def turn(m):
            name = m.group()
            before = text[: m.start()]
            if before.endswith("."):
                # a field, or a name by its path
                if proof and name not in uses and re.search(r"(?:^|[\s(])(?:c|l|goal|tie|lts|start|the)[\w.-]*\.$", before[-60:]):
                    return name
                return snake(name) if name in fields or (name in everything and not proof) else name
            if name in here and name not in library:
                return snake(name)
            if name in fields and re.match(r"\s*(=|:)[^=]", text[m.end():m.end() + 12]):
                return snake(name) if not proof else name
            return name

        new = NAME.sub(turn, text)
        if new != text and not bad:
            texts[path] = new
            with open(path, "w", encoding="utf-8") as f:
                f.write(new)
    if bad:
        return 1
    for folder, dirs, names in os.walk(os.path.join(ROOT, "docs")):
        dirs[:] = [d for d in dirs if d != "spec"]
        for name in names:
            if name.endswith(".md"):
                turn_page(os.path.join(folder, name), everything)
    turn_page(os.path.join(ROOT, "README.md"), everything)
    return 0


def turn_page(path, names):
    with open(path, encoding="utf-8") as f:
        text = f.read()
    new = re.sub(r"`[^`\n]+`", lambda m: NAME.sub(lambda n: snake(n.group()) if n.group() in names else n.group(), m.group()), text)
    if new != text:
        with open(path, "w", encoding="utf-8") as f:
            f.write(new)


if __name__ == "__main__":
    sys.exit(main())
