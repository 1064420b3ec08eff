#!/usr/bin/env python3
"""Counts the places of docs/DESIGN-PASS.md in src/. Run at the top: python3 tools/forms.py [--list]"""
import collections
import glob
import re
import sys

LIST = "--list" in sys.argv[1:]
KEEP = {"if", "else", "while", "loop", "return", "let", "mut", "match", "true", "false", "break", "continue", "for", "in"}


def functions():
    """(crate, name, head, body) of each function with a body of several lines."""
    found = []
    for path in sorted(glob.glob("crates/*/src/**/*.rt", recursive=True)):
        text = re.sub(r"//[^\n]*", "", open(path, encoding="utf8").read())
        lines = text.split("\n")
        for i, line in enumerate(lines):
            m = re.match(r'(\s*)(pub )?(extern "C" )?fn (\w+)', line)
            if not m or line.rstrip().endswith("{}"):
                continue
            j = i
            while not (lines[j].rstrip() == m.group(1) + "{" or (lines[j].rstrip().endswith(" {") and "requires" not in lines[j] and "ensures" not in lines[j])):
                j += 1
            k = j
            while lines[k] != m.group(1) + "}":
                k += 1
            found.append((path.split("/")[1], m.group(4), "\n".join(lines[i : j + 1]), "\n".join(lines[j + 1 : k])))
    return found


def shape(body):
    """A body with its names and figures replaced by numbers in the order in which they come."""
    ids = {}
    return re.sub(r"[A-Za-z_]\w*|\d+", lambda m: m.group(0) if m.group(0) in KEEP else ids.setdefault(m.group(0), f"v{len(ids)}"), re.sub(r"\s+", " ", body))


def parameters(head):
    inside = re.search(r"fn \w+(?:<[^(]*>)?\((.*?)\)\s*(?:->|\n|\{|requires|ensures)", head + "\n", re.S)
    return [] if not inside else [p.strip() for p in re.split(r",(?![^<\[(]*[>\])])", inside.group(1)) if p.strip()]


def row(point, what, places):
    places = list(places)
    print(f"{point}\t{what}\t{len(places)}")
    if LIST:
        for p in places:
            print(f"\t{p}")


fns = functions()
sources = {p: re.sub(r"//[^\n]*", "", open(p, encoding="utf8").read()) for p in sorted(glob.glob("crates/*/src/**/*.rt", recursive=True))}


def each(pattern):
    for path, text in sources.items():
        for m in re.finditer(pattern, text):
            yield f"{path.split('/')[1]}:{text.count(chr(10), 0, m.start()) + 1} {m.group(0).strip()}"


row(1, "own enums", each(r"\benum \w+"))
row(1, "arms that only pass a refusal on", each(r"\b(?:\w+::)?(?:Refused|Err)\(why\) =>[^\n]*(?:Refused|Err|\breturn)\b[^\n]*"))
groups = collections.defaultdict(list)
for crate, name, head, body in fns:
    if crate != "vectors" and body.count("\n") >= 4:
        groups[shape(body)].append(f"{crate}::{name}")
row(2, "bodies of five lines and more that are alike but for names", [" = ".join(v) for v in groups.values() if len(v) > 1])
row(2, "functions that only widen a number", each(r"\bfn wide\("))
row(3, "while", each(r"\bwhile\b[^\n]*"))
row(3, "loop", each(r"\bloop \{"))
row(4, "bool functions of return true and return false, without a loop", [f"{c}::{n}" for c, n, h, b in fns if "-> bool" in h and re.search(r"return (true|false);", b) and not re.search(r"\b(while|for|loop)\b", b)])
row(4, "an if alone in an if", each(r"if [^\n{]* \{\n\s*if [^\n{]* \{\n[^{}]*\}\n\s*\}\n"))
row(5, "functions of 6 parameters and more", [f"{c}::{n} {len(parameters(h))}" for c, n, h, b in fns if len(parameters(h)) >= 6])
row(5, "functions of 8 parameters and more", [f"{c}::{n} {len(parameters(h))}" for c, n, h, b in fns if len(parameters(h)) >= 8])
facts = collections.Counter(w for c, n, h, b in fns for w in set(re.findall(r"(?:requires \w*\s*\{ )([A-Z]\w+)", h)))
row(5, "facts that three requires and more state", [f"{w} {k}" for w, k in facts.most_common() if k >= 3])
row(6, "local arrays", each(r"= \[0(?:u8|usize)?; [^\]]*\]"))
row(7, "parameters that say which step to run", [])
print("8\tanswers\t%d" % sum(len(re.findall(r"^(?:pub )?[\w\-]+ : goal\.", open(p, encoding="utf8").read(), re.M)) for p in glob.glob("crates/*/proofs/**/Answers.antt", recursive=True)))
print("8\tlines of proofs of functions\t%d" % sum(open(p, encoding="utf8").read().count("\n") for n in ("Answers", "Invariants") for p in glob.glob(f"crates/*/proofs/**/{n}.antt", recursive=True)))
