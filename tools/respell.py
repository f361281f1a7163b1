#!/usr/bin/env python3
"""After the kit's port.py: brings the repository's own definitions and lemmas to the spelling of today's library.

usage: tools/respell.py [--check]    at the top of the repository

Words are in snake case, types and modules in camel case, and a dash joins two names. tools/respell.tsv has each old name with its new
one; functions of src/, exported names, strings, inputs and outputs keep theirs. In proof files and specs a name is turned wherever it
stands in the code; in src/ in clauses and imports, which is where a name with a dash or a capital inside can stand; in comments and
pages between backticks. --check changes nothing and prints the files in which two names fall together.
"""
import pathlib
import re
import sys

TABLE = dict(line.rstrip("\n").split("\t") for line in open("tools/respell.tsv", encoding="utf-8"))
TOKEN = re.compile(r"[^\s(){};,.\[\]«»|\"`:]+|.", re.S)


def turned(text, found=None):
    out = []
    for token in TOKEN.findall(text):
        new = TABLE.get(token, token)
        if found is not None and len(token) > 1:
            found.setdefault(new, set()).add(token)
        out.append(new)
    return "".join(out)


def in_backticks(text):
    return re.sub(r"`[^`\n]+`", lambda m: turned(m[0]), text)


def comment_at(line, mark):
    """Where a comment begins, outside a string."""
    quoted = False
    for i, c in enumerate(line):
        if c == '"' and (i == 0 or line[i - 1] != "\\"):
            quoted = not quoted
        if not quoted and line.startswith(mark, i) and (i == 0 or line[i - 1] == " "):
            return i
    return len(line)


def strings_kept(text):
    return re.sub(r'("(?:[^"\\]|\\.)*")|([^"]+|")', lambda m: m[1] or turned(m[2]), text)


def line_turned(line, mark, found):
    at = comment_at(line, mark)
    code, comment = line[:at], line[at:]
    code = turned(code, found) if mark == "--" else strings_kept(code)
    return code + in_backticks(comment)


def file_turned(path, text, found=None):
    mark = {".antt": "--", ".rt": "//"}.get(path.suffix)
    if mark is None:
        return in_backticks(text)
    return "\n".join(line_turned(line, mark, found) for line in text.split("\n"))


def files():
    for path in sorted(pathlib.Path("crates").rglob("*")):
        if path.suffix in (".antt", ".rt") and "out" not in path.parts[:3]:
            yield path
    yield pathlib.Path("README.md")
    for path in sorted(pathlib.Path("docs").glob("*.md")):
        if path.name != "PORT.md":
            yield path


def contracts_renamed():
    """set_key's contract has its name again, and the file that a module of the toolchain's now has the name of is CallContracts."""
    theorems = pathlib.Path("crates/coordinator_theorems")
    linked = theorems / "proofs/Contracts.antt"
    linked.write_text(linked.read_text().replace("heldKeyContract", "set_key").replace("held_key_contract", "set_key"))
    (theorems / "specs/Contracts.antt").rename(theorems / "specs/CallContracts.antt")
    names = theorems / "specs/Lib.antt"
    names.write_text(names.read_text().replace("pub mod Contracts", "pub mod CallContracts"))
    for path in pathlib.Path("crates").rglob("*.antt"):
        text = path.read_text()
        new = text.replace("Rattle.coordinator_theorems.specs.Contracts", "Rattle.coordinator_theorems.specs.CallContracts")
        if new != text:
            path.write_text(new)


def main():
    check = sys.argv[1:] == ["--check"]
    for path in files():
        text = path.read_text(encoding="utf-8")
        found = {}
        new = file_turned(path, text, found)
        if check:
            for name, olds in sorted(found.items()):
                if len(olds) > 1:
                    print(f"{path}: {name}: {' '.join(sorted(olds))}")
        elif new != text:
            path.write_text(new, encoding="utf-8")
    if not check:
        contracts_renamed()


main()
