#!/usr/bin/env python3
"""Spells this repository's own definitions, lemmas and fields in snake case, as the library does: firstFrom and vol-cross become
first_from and vol_cross. It is run once, at the top, on what port.py left. A dash stays where it joins a type or an operator to a
name (Pw-append, *ℤ-+ℤ). Names of the library, of functions and of types stay.

usage: tools/names.py [--check]      --check writes nothing and says which names would fall together
"""

import collections
import os
import re
import sys

WORD = re.compile(r'[^\s(){}\[\].;,@"«»]+')
QUIET = re.compile(r'"(?:[^"\\\n]|\\.)*"|(?<![^\s(){}.;,@"«»])--[^\n]*|//[^\n]*')
SPAN = re.compile(r"`[^`\n]+`")
USE = re.compile(r"use\s+([^\s;{]+?)\.\{([^}]*)\}", re.S)
TOP = re.compile(r"^(?:(?:pub|abbrev|unfoldable) )*([^\s(){}.;,:|=]+) (?:\{[^}]*\} )?:\s")
INNER = re.compile(r"^\s+(?:pub )?([^\s(){}.;,:|=]+) (?:\{[^}]*\} )?:\s")
SEVERAL = re.compile(r"^\s+((?:[a-z][A-Za-z]* )+[a-z][A-Za-z]*) :\s")
LET = re.compile(r"\b(?:let|where) ([^\s(){}.;,:|=]+) :\s")
# Where a dash joins an operator to a plain word, the word is added with '_'.
ROWS = {
    "*ℤ-assoc": "*ℤ_assoc",
    "*ℤ-left-comm": "*ℤ_left_comm",
    "*ℤ-swap": "*ℤ_swap",
    "+ℤ-left-comm": "+ℤ_left_comm",
    "+ℤ-swap": "+ℤ_swap",
    "<-trans": "<_trans",
    "<-≤-trans": "<-≤_trans",
    "≤-<-trans": "≤-<_trans",
    "≤-refl": "≤_refl",
    "getD-in": "get_or_in",
    "in-getD": "in_get_or",
}
# A lemma that would have the name of its definition gets '_lem'; two of them by the module that declares them.
OF_A_DEFINITION = "count-in face-at first-from hull-text in-float into-buffer into-list is-above is-zero least-from start-faces touches-in version-in"
ROWS |= {name: name.replace("-", "_") + "_lem" for name in OF_A_DEFINITION.split()}
LEMMAS = {
    "Rattle.laws.proofs.Signs": {"is_below": "is_below_lem"},
    "Rattle.volume.proofs.SameWayLaws": {"same_way": "same_way_lem"},
}


def spelled(name):
    """The name in snake case, or None where it stays."""
    if name in ROWS:
        return ROWS[name]
    if len(name) < 3 or re.search(r"[*<≤]|[+-]ℤ|^-|^\+|^T-", name) or any(part[:1].isupper() and len(part) > 1 for part in name.split("-")):
        return None
    new = re.sub(r"(?<=[a-z0-9])[A-Z]", lambda m: "_" + m[0].lower(), name)
    new = re.sub(r"(?<=[A-Za-z0-9'→])-(?=[A-Za-z0-9→])", "_", new)
    return new if new != name else None


def files(top):
    for folder, dirs, names in os.walk(top):
        dirs[:] = sorted(d for d in dirs if d not in ("out", "target", ".git"))
        for name in sorted(names):
            yield os.path.join(folder, name)


def is_proof_of_a_function(path):
    """Such a file answers goals, whose names are the prover's."""
    return bool(re.search(r"/proofs/[^/]+/", path))


def declared(text):
    """Names that the file declares: at the top; as a field, a constructor or a local lemma."""
    code = QUIET.sub("", text)
    top, inner = set(), set()
    for line in code.split("\n"):
        for pattern, into in ((TOP, top), (INNER, inner)):
            found = pattern.match(line)
            if found:
                into.add(found[1])
        found = SEVERAL.match(line)
        if found:
            inner |= set(found[1].split())
        inner |= set(LET.findall(line))
    return top, inner


def imports(text):
    """(own, other): names that the file imports from a crate of this repository, each with its new spelling, and from elsewhere."""
    own, other = {}, set()
    for module, names in USE.findall(QUIET.sub("", text)):
        parts = module.split(".")
        is_own = parts[0] == "Rattle" and parts[1] in CRATES
        for name in names.split(","):
            for word in (word.strip() for word in name.split(" as ") if word.strip()):
                if is_own:
                    own[word] = LEMMAS.get(module, {}).get(word) or spelled(word)
                else:
                    other.add(word)
    return own, other


def module_of(path):
    return "Rattle." + path[len("crates/") : -len(".antt")].replace("/", ".")


CRATES = set(os.listdir("crates"))
check = "--check" in sys.argv
texts = {p: open(p, encoding="utf-8").read() for p in files("crates") if p.endswith((".antt", ".rt", ".edit"))}

tops, inners = {}, {}
fields = set()
for path, text in texts.items():
    if path.endswith(".antt"):
        tops[path], inners[path] = declared(text)
        if not is_proof_of_a_function(path):
            fields |= {name for name in inners[path] if spelled(name)}
every_new = {spelled(name) or name for path in tops for name in tops[path] | inners[path]}
every_top = {name for path in tops if not is_proof_of_a_function(path) for name in tops[path] if spelled(name)}

said = collections.defaultdict(set)
scopes = {}  # for each file the words that turn, with their new spelling
for path, text in texts.items():
    if path.endswith(".edit"):
        continue
    own, other = imports(text)
    here = {name: spelled(name) for name in fields}
    if path.endswith(".antt") and not is_proof_of_a_function(path):
        here |= {name: spelled(name) for name in tops[path] | inners[path]}
        here |= LEMMAS.get(module_of(path), {})
    here |= own
    words = set(WORD.findall(QUIET.sub("", text)))
    here = {old: new for old, new in here.items() if new and new != old and old in words and old not in other}
    for old, new in here.items():
        if new in words and new not in here:
            said["falls together with a word of the file"].add(f"{path}: {old} -> {new}")
        twins = sorted(it for it in here if here[it] == new)
        if len(twins) > 1:
            said["two of one spelling"].add(f"{path}: {twins}")
    for name in words & (every_top | fields) - set(here):
        said["not turned"].add(f"{path}: {name}")
    scopes[path] = here


def crate_of(path):
    return path.split("/")[1]


for path, text in texts.items():
    if path.endswith(".edit"):
        scopes[path] = {}
        for it in re.findall(r"(?m)^file: (\S+)", text):
            scopes[path] |= scopes.get(f"crates/{crate_of(path)}/{it}", set())


def turn_code(text, here):
    return WORD.sub(lambda m: here.get(m[0], m[0]), text)


def turn_comment(text, here):
    """A word of prose with a dash is prose, but in a code span."""
    text = SPAN.sub(lambda m: "`" + turn_code(m[0][1:-1], here) + "`", text)
    return WORD.sub(lambda m: m[0] if "-" in m[0] else here.get(m[0], m[0]), text)


def turned(path, text):
    here = scopes[path]
    if path.endswith(".edit"):
        return "\n".join(line if line.startswith("#") else turn_code(line, here) for line in text.split("\n"))
    out, at = [], 0
    for m in QUIET.finditer(text):
        out += [turn_code(text[at : m.start()], here), m[0] if m[0][0] == '"' else turn_comment(m[0], here)]
        at = m.end()
    return "".join(out + [turn_code(text[at:], here)])


def turned_page(text):
    """A page names what port.py respelled too."""
    return SPAN.sub(lambda m: "`" + WORD.sub(lambda w: spelled(w[0]) if spelled(w[0]) in every_new else w[0], m[0][1:-1]) + "`", text)


if check:
    for head in said:
        print(f"{head}: {len(said[head])}")
        print("\n".join("  " + line for line in sorted(said[head])))
    sys.exit(0)
count = 0
for path, text in texts.items():
    new = turned(path, text)
    if new != text:
        count += 1
        open(path, "w", encoding="utf-8").write(new)
for path in ["README.md", *files("docs")]:
    if path.endswith(".md"):
        text = open(path, encoding="utf-8").read()
        new = turned_page(text)
        if new != text:
            count += 1
            open(path, "w", encoding="utf-8").write(new)
print(f"names: {count} files changed")
