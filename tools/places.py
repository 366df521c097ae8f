#!/usr/bin/env python3
"""Counts the places in crates/*/src that docs/DESIGN-PASS.md speaks of. `places.py` prints a line a point, `places.py N` the places of point N."""

import collections
import glob
import re
import sys

SOURCES = {name: open(name, encoding="utf-8").read() for name in sorted(glob.glob("crates/*/src/**/*.rt", recursive=True))}
CODE = {name: re.sub(r"//.*", "", text) for name, text in SOURCES.items()}


def matches(pattern):
    """Each match of a pattern in the code, as `file:line: text`."""
    found = []
    for name, text in CODE.items():
        for match in re.finditer(pattern, text, re.M):
            line = text.count("\n", 0, match.start()) + 1
            found.append(f"{name}:{line}: {' '.join(match.group(0).split())[:120]}")
    return found


def shaped_enums():
    """Own enums with a variant that says that there is nothing, or why not, beside variants that hold what there is."""
    empty = re.compile(r"^    (Refused|Bad|BadLine|Nothing|Fine|Unwritten|BadCard)\b", re.M)
    full = re.compile(r"^    (Done|Good|A|Of|On|Has|Value|Current|Names|Found|Fine|Causal)\b", re.M)
    found = []
    for name, text in CODE.items():
        for match in re.finditer(r"^(?:pub )?enum (\w+) \{\n(.*?)^\}", text, re.M | re.S):
            if empty.search(match.group(2)) and full.search(match.group(2)):
                found.append(f"{name}: enum {match.group(1)}")
    return found


def functions():
    """Each function with its body."""
    for name, text in CODE.items():
        for match in re.finditer(r"^( *)(?:pub )?fn (\w+).*?\n\1\{\n(.*?)^\1\}", text, re.M | re.S):
            yield name, match.group(2), match.group(3)


def twins():
    """Functions whose bodies, 25 tokens and more, are one but for names and numbers."""
    groups = collections.defaultdict(list)
    for name, function, body in functions():
        seen = {}
        tokens = []
        for token in re.findall(r"\w+|[^\w\s]", body):
            if re.match(r"[A-Za-z_0-9]", token) and token not in ("if", "let", "mut", "return", "while", "for", "in", "match", "true", "false", "else"):
                token = str(seen.setdefault(token, len(seen)))
            tokens.append(token)
        if len(tokens) >= 25:
            groups[" ".join(tokens)].append(f"{name}: {function}")
    return [" = ".join(group) for group in groups.values() if len(group) > 1]


def clauses():
    """Each conjunct of a `requires`, with the functions that ask it."""
    asked = collections.Counter()
    for text in SOURCES.values():
        for match in re.finditer(r"requires(?: \w+)? \{(.*?)\}\n", text, re.S):
            depth, part, parts = 0, "", []
            for char in " ".join(match.group(1).split()):
                depth += (char in "([{") - (char in ")]}")
                if char == "×" and depth == 0:
                    parts.append(part)
                    part = ""
                else:
                    part += char
            for part in parts + [part]:
                part = part.strip()
                while part.startswith("(") and part.endswith(")"):
                    part = part[1:-1].strip()
                asked[re.sub(r"\.(now|old)\b", "", part)] += 1
    return [f"{count} {fact}" for fact, count in asked.most_common() if count >= 3]


POINTS = {
    "1": ("own enums of the shape of Option or Result", shaped_enums),
    "1n": ("constants that are numbers of refusals or kinds", lambda: matches(r"^(?:pub )?const (NO_ROOM|BAD_?\w*|CUT|WHOLE|DATE|WRONG|READ|WRITE|COPY|BEAT): u\d+ = .*;$")),
    "2": ("groups of functions whose bodies differ only in names and numbers", twins),
    "3": ("loops that count by hand", lambda: matches(r"^ *while .*$")),
    "4": ("numbers of one kind compared by their index", lambda: matches(r"\.index\(\) (?:==|!=) [\w.]+\.index\(\)")),
    "4f": ("functions that compare, choose or convert by hand", lambda: matches(r"fn (same\w*|is_same|larger|smaller|wide\w*|word|word_of\w*|half_of|low|\w*number_of|number_in|refusal_number|frame_number|byte_of|kind_of)\b")),
    "5": ("facts that stand in three and more contracts", clauses),
    "6": ("fields that are arrays, and outputs with a place beside them", lambda: matches(r"^ +pub \w+: \[u\d+; .*$|out: &mut \[u8\],\s+at: usize")),
    "7": ("enums that name a step to run", lambda: [place for place in matches(r"^(?:pub )?enum (Sought|Fault) \{$") if "auditor" in place]),
}

if len(sys.argv) > 1:
    print("\n".join(POINTS[sys.argv[1]][1]()))
else:
    for point, (what, count) in POINTS.items():
        print(f"{point}: {len(count())} {what}")
