#!/usr/bin/env python3
"""Respells this repository's own definitions and lemmas as today's Rattle spells words: in snake case.

usage: tools/respell.py [--list]        at the top, right after port.py; --list only prints the names, old and new, by module

A name in camel case gets underscores, `partsSaid` -> `parts_said`; a dash in a definition, a field or a constructor is an
underscore; in a lemma a dash joins names and stays, but that a function's name in it is spelled as in src/, so
`read-table-tight` -> `read_table-tight`. Types, modules and what comes from a library keep their names. Renamed in a file is
what it declares or imports; the goals and steps that Rattle makes for proofs are none of it.
"""

import collections
import glob
import os
import re
import sys

WORD = r"[^\s(){}\[\].;,@\"«»\\λ:=]+"
TOKEN = re.compile(r"--[^\n]*|\"(?:[^\"\\]|\\.)*\"|" + WORD)
RUST_WORD = re.compile(r"//[^\n]*|\"(?:[^\"\\]|\\.)*\"|b?'(?:[^'\\]|\\.)'|[A-Za-z_][\w'’-]*|[^\s\w]")
DECLARED = re.compile(
    r"^(?P<in>\s*)(?P<mods>(?:(?:pub|abbrev|unfoldable|data|record|opaque|mutual|instance) )*)(?P<names>" + WORD + r"(?: " + WORD + r")*?)\s*(?P<params>(?:[({].*?[)}]\s*)*):(?=\s|$)"
)
IMPORT = re.compile(r"^\s*(?:ghost )?use (Rattle\.[\w.+']+)\.\{([^}]*)\}", re.M)
# Lemmas that would fall together with a definition: port.py turned their dash.
BY_HAND = {
    it.replace("-", "_"): it
    for it in "closed-at closed-after by-bytes top-field table-fits all-words pairs-of same-size stopped-by".split()
}


def snake(part):
    if not part or not part[0].islower():
        return part
    part = re.sub(r"(?<=[a-z0-9'])([A-Z])(?=[A-Z]|\b|$)", lambda m: "_" + m.group(1).lower(), part)
    return re.sub(r"(?<=[a-z0-9])([A-Z])", lambda m: "_" + m.group(1).lower(), part)


def respelled(name, is_lemma, functions):
    if is_lemma and name in BY_HAND:
        return BY_HAND[name]
    parts = [snake(p) for p in name.split("-")]
    if not is_lemma:
        return "_".join(parts) if name[0].islower() else name
    for n in range(len(parts) - 1, 1, -1):
        if "_".join(parts[:n]) in functions:
            return "-".join(["_".join(parts[:n]), *parts[n:]])
    return "-".join(parts)


def module_of(path):
    p = path[len("crates/"):-len(".antt")].split("/")
    return "Rattle." + ".".join(p)


def is_of_a_function(path):
    return os.path.basename(path) in ("Proof.antt", "Answers.antt", "Invariants.antt")


def lines_of(text):
    """Each line with no comment."""
    return [re.sub(r"(^|\s)--( .*|-.*)?$", "", l) for l in text.split("\n")]


def declared(path, text):
    """The names that a file declares, each with what it is: 'type', 'lemma', 'word'."""
    out = {}
    record_in = None
    for l in lines_of(text):
        if not l.strip():
            continue
        indent = len(l) - len(l.lstrip())
        if record_in is not None and indent <= record_in:
            record_in = None
        m = DECLARED.match(l)
        if not m:
            continue
        mods = m.group("mods").split()
        for name in m.group("names").split():
            if "◌" in name or name in ("where", "with", "_", "module", "use", "→", "∷", "let") or not re.match(r"[A-Za-zα-ω]", name):
                continue
            if "data" in mods or "record" in mods:
                out[name] = "type"
                record_in = indent
            elif record_in is not None:
                out[name] = "word"
            elif "abbrev" in mods or "unfoldable" in mods:
                out[name] = "word"
            else:
                out.setdefault(name, "lemma")
    return out


def main():
    files = sorted(glob.glob("crates/*/specs/**/*.antt", recursive=True) + glob.glob("crates/*/proofs/**/*.antt", recursive=True))
    sources = sorted(glob.glob("crates/*/src/**/*.rt", recursive=True))
    texts = {f: open(f, encoding="utf-8").read() for f in files + sources}
    functions = set()
    for f in sources:
        functions |= set(re.findall(r"\bfn ([a-z_0-9]+)", texts[f]))
    modules = {}
    fields = {}
    for f in files:
        kinds = declared(f, texts[f])
        own = {}
        for name, kind in kinds.items():
            if is_of_a_function(f):
                # The names of goals and invariants are Rattle's; what else is declared here is renamed here alone.
                if name.startswith(("invariant-", "decreases-")) or re.search(r"^" + re.escape(name) + r" : tie\.", texts[f], re.M) or name.endswith(("-spec", "_spec")):
                    continue
            if kind == "type":
                continue
            new = respelled(name, kind == "lemma", functions)
            if new != name:
                own[name] = new
        modules[module_of(f)] = own
    # A field's name is read after a dot, in any file: what is a field's name anywhere is one everywhere.
    for f in files:
        inside = None
        for l in lines_of(texts[f]):
            indent = len(l) - len(l.lstrip())
            if re.match(r"\s*(pub )?record \S", l):
                inside = indent
                continue
            if l.strip() and inside is not None and indent <= inside:
                inside = None
            m = DECLARED.match(l) if inside is not None else None
            if m and not is_of_a_function(f):
                for name in m.group("names").split():
                    new = respelled(name, False, functions)
                    if new != name and re.match(r"[a-z]", name):
                        fields[name] = new
    if "--list" in sys.argv:
        for m, own in modules.items():
            for a, b in sorted(own.items()):
                print(m, a, b)
        for a, b in sorted(fields.items()):
            print("field", a, b)
        return
    clashes = 0
    for f, text in texts.items():
        rust = f.endswith(".rt")
        local = {} if rust else dict(modules[module_of(f)])
        foreign = set()
        qualified = {}
        for m in re.finditer(r"^\s*(?:ghost )?use ([\w.+'-]+)\.\{([^}]*)\}", text, re.M):
            for it in m.group(2).split(","):
                words = it.split()
                if not words:
                    continue
                own = modules.get(m.group(1))
                # A constructor's module and the declared types of src/ have no names of ours.
                if own is None:
                    if not m.group(1).startswith("Rattle.") or m.group(1).startswith("Rattle.std"):
                        foreign.add(words[-1])
                    continue
                if words[0] in own:
                    local.setdefault(words[0], own[words[0]])
        for m in re.finditer(r"^\s*use ([\w.+'-]+) as (\S+)$", text, re.M):
            if m.group(1) in modules:
                qualified[m.group(2)] = modules[m.group(1)]
        for it in foreign:
            local.pop(it, None)

        def turn(token, before, qualifier):
            if token.startswith(("--", "//", '"')):
                return token
            if before == ".":
                if qualifier in qualified:
                    return qualified[qualifier].get(token, token)
                return token if re.match(r"\d", token) else fields.get(token, token)
            return local.get(token, token)

        out, last, qualifier = [], 0, ""
        pattern = RUST_WORD if rust else TOKEN
        for m in pattern.finditer(text):
            token = m.group()
            before = text[m.start() - 1] if m.start() else ""
            prefix = re.search(r"([\w'+-]+)\.$", text[max(0, m.start() - 80):m.start()])
            # A field in braces of a record literal stands at the start or after a semicolon and before '='.
            new = turn(token, before, prefix.group(1) if prefix else "")
            if new == token and token in fields and re.match(r"\s*=(?!=)", text[m.end():m.end() + 4]) and re.search(r"[{;]\s*$", text[max(0, m.start() - 60):m.start()]):
                new = fields[token]
            if new == token and token in fields and not rust and re.match(r"^\s*(pub )?$", text[text.rfind("\n", 0, m.start()) + 1:m.start()]) and re.match(r"\s*:", text[m.end():m.end() + 4]):
                new = local.get(token, fields[token])
            out.append(text[last:m.start()])
            out.append(new)
            last = m.end()
        out.append(text[last:])
        new_text = "".join(out)
        had = collections.Counter(m.group() for m in pattern.finditer(text))
        for a, b in local.items():
            if had[a] and had[b]:
                clashes += 1
                print(f"look: {f}: {a} -> {b}, which stands there already")
        if new_text != text:
            with open(f, "w", encoding="utf-8") as o:
                o.write(new_text)
    print(f"respell: {clashes} to look at")


main()
