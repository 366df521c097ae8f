#!/usr/bin/env python3
"""Respells the definitions and lemmas of specs/ and proofs/: words in snake case, where they were joined by a dash or by a capital.

usage: tools/respell.py           at the top: rewrites the files in place
       tools/respell.py --list    prints old and new names, and rewrites nothing

It was run once, right after the kit's own script brought the files to today's Rattle, and stands here so that the step can be made again.
A name is respelled in each file that declares it or imports it from one of our crates, and nowhere else, so that names of the library
stay. Functions of src/, C names, strings and inputs keep their names. What a file's proof answers (Need-..), its measures and
invariants, and the names under `tie` and `c` keep their spelling here too: Rattle makes them.
"""

import glob
import os
import re
import sys

WORD = r"[^\s(){}.;,@\"«»\[\]\\:]+"
TOKEN = re.compile(r"\"(?:[^\"\\]|\\.)*\"|" + WORD)
DECLARED = re.compile(
    r"^(\s*)(?:abbrev |unfoldable )?(?:pub )?(?:abbrev |unfoldable )?(?:pub )?(record |data |module )?(" + WORD + r")"
    r"(?:\s*\{[^}]*\})*(?:\s*\([^:()]*:[^)]*\))*\s*:(?:\s|$)"
)
MADE = re.compile(r"tie\.(Need|invariant|decreases)")
# The lemmas that would fall together with the definition that they speak of, or with a name of the library: `_law` is added to these.
LAWS = set()
TAKEN = {"bit_or"}
# Two more that would fall together, each with another of its file.
APART = {"set-up": "setting_up", "next-number": "next_number_law", "has-it": "has_it_there", "sameHome": "same_home_here"}


def respelled(name):
    if name in APART:
        return APART[name]
    if name in LAWS:
        return in_snake(name) + "_law"
    return in_snake(name)


def in_snake(name):
    if not re.match(r"[a-z]", name):
        return name
    if re.search(r"[^\w'-]", name):
        return name
    name = name.replace("-", "_")
    name = re.sub(r"(?<=[a-z0-9])([A-Z])", lambda it: "_" + it[1].lower(), name)
    name = re.sub(r"([A-Z])", lambda it: it[1].lower(), name)
    return name


def read(path):
    with open(path, encoding="utf-8") as it:
        return it.read()


def crates():
    return sorted(c for c in os.listdir("crates") if os.path.isdir(f"crates/{c}/src"))


def declared_in(text, proof):
    """The names that a file declares, those within records and data among them, but what Rattle makes."""
    found = set()
    for line in text.split("\n"):
        it = DECLARED.match(line)
        if not it or it[2] == "module " or line.lstrip().startswith("--"):
            continue
        if proof and (MADE.search(line) or it[3].endswith("-spec")):
            continue
        found.add(it[3])
    return found


USE = re.compile(r"^(?:ghost )?(?:pub )?use ([^\s{;]+)\.\{([^}]*)\}", re.M)


def main(argv):
    ours = set(crates())
    files = {}
    for c in sorted(ours):
        for part in ("specs", "proofs"):
            for p in glob.glob(f"crates/{c}/{part}/**/*.antt", recursive=True):
                files[p] = read(p)
        for p in glob.glob(f"crates/{c}/src/**/*.rt", recursive=True):
            files[p] = read(p)
    # What each module declares, fields and constructors too.
    declares, every, made = {}, set(), {}
    for p, t in files.items():
        if p.endswith(".antt"):
            it = declared_in(t, p.endswith("/Proof.antt"))
            if p.endswith("/Proof.antt"):
                made[p] = declared_in(t, False) - it
            declares[p] = it
            if not p.endswith("/Proof.antt"):
                every |= it
    defined = set()
    for p, it in declares.items():
        if "/specs/" in p:
            defined |= it
    meant = {in_snake(n) for n in defined} | TAKEN
    for p, it in declares.items():
        if "/proofs/" in p:
            LAWS.update(n for n in it if in_snake(n) in meant and n not in defined)
    fields = set()
    for p, t in files.items():
        if not p.endswith(".antt") or p.endswith("/Proof.antt"):
            continue
        inside = False
        for line in t.split("\n"):
            if re.match(r"\s*(pub )?record ", line):
                inside = True
            elif line.strip() and not line.startswith(" "):
                inside = False
            elif inside:
                it = DECLARED.match(line)
                if it:
                    fields.add(it[3])
    out, names, clashes = {}, {}, []
    for p, t in files.items():
        own = set(declares.get(p, ()))
        for path, listed in USE.findall(t):
            parts = path.split(".")
            if parts[0] == "Rattle" and len(parts) > 1 and parts[1] in ours and ".specs.declared" not in path:
                for word in listed.split(","):
                    own.add(word.strip().split(" as ")[0])
                    own.add(word.strip().split(" as ")[-1])
        own -= made.get(p, set())
        here = {n: respelled(n) for n in own if respelled(n) != n}
        tokens = set(TOKEN.findall(t))
        for old, new in here.items():
            if re.search(r"(?<![^\s(){};,@\"«»\[\]])" + re.escape(new) + r"(?![^\s(){};,@\"«»\[\]])", t) and new not in here and not p.endswith(".rt"):
                clashes.append((p, old, new))
            names[old] = new
        seen = {}
        for old, new in here.items():
            if new in seen:
                clashes.append((p, old, seen[new] + " too"))
            seen[new] = old

        def turned(line):
            code, dash, note = line, "", ""
            at = re.search(r"(^|\s)--(\s|$)" if p.endswith(".antt") else r"(^|\s)//", line)
            if at:
                code, note = line[: at.start()], line[at.start() :]
            def word(it):
                w = it[0]
                if w.startswith('"'):
                    return w
                before = code[: it.start()]
                if before.endswith("."):
                    head = re.search(r"([^\s(){},;\"]+)\.$", before)
                    chain = head[1] if head else ""
                    if chain.startswith("Rattle."):
                        second = chain.split(".")[1]
                        if second in ours and w in every and "specs.declared" not in chain and not re.search(r"\.(Tie|Goals|Given|Statement)$", chain):
                            return respelled(w)
                        return w
                    return respelled(w) if w in fields and w in every else w
                return here.get(w, respelled(w) if w in fields and re.search(r"[{;(]\s*$|^\s*$", before) and re.match(r"\s*=", code[it.end() :]) else w)
            code = TOKEN.sub(word, code)
            note = re.sub(r"`([^`]*)`", lambda it: "`" + TOKEN.sub(lambda w: respelled(w[0]) if w[0] in every else w[0], it[1]) + "`", note)
            return code + note
        new = "\n".join(turned(line) for line in t.split("\n"))
        if new != t:
            out[p] = new
    for c in clashes:
        print("clash:", *c)
    if "--list" in argv:
        for old in sorted(names):
            print(old, names[old])
        print("laws:", *sorted(LAWS))
        print("fields:", *sorted(f for f in fields if respelled(f) != f))
        return 0
    if clashes:
        return 1
    for p, t in out.items():
        with open(p, "w", encoding="utf-8") as it:
            it.write(t)
    print(f"respelled: {len(out)} files, {len(names)} names")
    return 0


if __name__ == "__main__":
    sys.exit(main(sys.argv[1:]))
