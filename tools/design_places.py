"""The places that docs/DESIGN-PASS.md counts, in crates/*/src of a commit or of the folder as it stands.

    python3 tools/design_places.py [COMMIT]        the count of each kind of place, and each place

It goes by text. What it lists is read by hand afterwards; the page says which of the lines are places.
"""
import re
import subprocess
import sys
from collections import defaultdict
from pathlib import Path

KEYWORDS = set(
    "fn pub let mut if else for in while loop match return break as use impl self true false const unsafe extern struct enum ref".split()
)


def sources(commit):
    """The .rt files below crates/*/src: path and text."""
    if commit is None:
        for path in sorted(Path("crates").glob("*/src/*.rt")):
            yield str(path), path.read_text()
        return
    names = subprocess.run(["git", "ls-tree", "-r", "--name-only", commit, "crates"], capture_output=True, text=True, check=True)
    for name in sorted(names.stdout.split()):
        if re.fullmatch(r"crates/\w+/src/\w+\.rt", name):
            yield name, subprocess.run(["git", "show", f"{commit}:{name}"], capture_output=True, text=True, check=True).stdout


def functions(text):
    """Each function with a body: its name, line, signature, clauses and body."""
    lines = text.split("\n")
    at = 0
    while at < len(lines):
        start = re.match(r"( *)(?:pub )?(?:extern \"C\" )?fn (\w+)", lines[at])
        if not start:
            at += 1
            continue
        indent, name, first = start.group(1), start.group(2), at
        opened = at
        while opened < len(lines) and lines[opened] != indent + "{" and not lines[opened].endswith(" {"):
            opened += 1
        closed = opened
        while closed < len(lines) and lines[closed] != indent + "}":
            closed += 1
        head = lines[first : opened + 1]
        clauses = [l.strip() for l in head if l.strip().startswith(("requires", "ensures"))]
        signature = " ".join(l.strip() for l in head if not l.strip().startswith(("requires", "ensures")))
        yield name, first + 1, signature.split(" {")[0], clauses, "\n".join(lines[opened + 1 : closed])
        at = closed + 1


def shape(body):
    """The body with names, types and numbers left out."""
    out = []
    for token in re.findall(r"[A-Za-z_]\w*|\d\w*|\S", re.sub(r"//.*", "", body)):
        if token in KEYWORDS or not re.match(r"\w", token):
            out.append(token)
        else:
            out.append("N" if token[0].isdigit() else "a")
    return out


def parameters(signature):
    """The parameters of a signature, as `name: type`."""
    inside = re.search(r"\((.*)\)", signature)
    return [p.strip() for p in re.split(r",(?![^<\[]*[>\]])", inside.group(1)) if ":" in p] if inside else []


def places(commit):
    found = defaultdict(list)
    twins, together, facts = defaultdict(list), defaultdict(set), defaultdict(set)
    for path, text in sources(commit):
        crate = path.split("/")[1]
        for number, line in enumerate(text.split("\n"), 1):
            where = f"{path}:{number}: {line.strip()}"
            if re.match(r"\s*(pub )?enum \w+", line):
                found["1 an enum"].append(where)
            if re.search(r"-> (u8|u16|Refusal)$", line):
                found["1 a function that answers a small number or a refusal"].append(where)
            if re.match(r"\s*//.*(, or m\b|, or 0\b|else it is 0)", line):
                found["1 a value that stands for none, as its comment says"].append(where)
            if re.search(r"\b(first|name|kind): (usize|u8|u16)\b|const ENDS: usize", line):
                found["1 a number for a kind, a side or a name"].append(where)
            if re.match(r"\s*(while |loop \{|'\w+: loop)", line):
                found["3 a while or a loop"].append(where)
            if re.match(r"\s*for (\w+) in .*\.\.", line):
                index = re.match(r"\s*for (\w+) in", line).group(1)
                rest = text.split("\n")[number : number + 12]
                if any(re.search(rf"\w\[{index}\]|\w\[\w+ \+ {index}\]", l) for l in rest):
                    found["3 a for whose variable indexes a slice"].append(where)
            if re.search(r"\bas (usize|u32)\b", line):
                found["4 a widening by as"].append(where)
            if re.match(r"\s*#\[derive\(Clone, Copy\)\]", line):
                found["4 a type with no derived equality"].append(where)
            if re.match(r"\s*match (\w+) \{|\s*match (\w+\.\w+) \{", line):
                found["7 a match on a plain value"].append(where)
        for name, line, signature, clauses, body in functions(text):
            if re.search(r"fn (wide\w*|narrow|greater|smaller|difference|one_if|member|byte_of|byte_in|stays|and\w*)\b", signature):
                found["4 a conversion, a minimum or a difference of its own"].append(f"{path}:{line}: {signature}")
            form = shape(body)
            if len(form) >= 14:
                twins[" ".join(form)].append(f"{path}:{line} {name}")
            names = parameters(signature)
            for pair in zip(names, names[1:]):
                together[(crate, pair)].add(name)
            for clause in clauses:
                if clause.startswith("requires"):
                    facts[(crate, re.sub(r"^requires( \w+)? ", "", clause))].add(name)
            if any(re.match(r"\w+: &(mut )?\[u(8|16)\]$", a) and re.match(r"(size|n|count): usize", b) for a, b in zip(names, names[1:])):
                found["6 a slice with a length beside it"].append(f"{path}:{line}: {name}")
    for group in twins.values():
        if len(group) > 1:
            found["2 functions that differ only in names, types and numbers"].append(", ".join(group))
    for (crate, pair), names in sorted(together.items()):
        if len(names) >= 3:
            found["5 parameters that three functions of a crate have side by side"].append(f"{crate}: {pair[0]}, {pair[1]}: {', '.join(sorted(names))}")
    for (crate, fact), names in sorted(facts.items()):
        if len(names) >= 3:
            found["5 a fact that three functions of a crate require"].append(f"{crate}: {fact}: {', '.join(sorted(names))}")
    return found


def main():
    commit = sys.argv[1] if len(sys.argv) > 1 else None
    found = places(commit)
    for kind in sorted(found):
        print(f"{kind}: {len(found[kind])}")
    for kind in sorted(found):
        print(f"\n{kind}")
        for place in found[kind]:
            print(f"    {place}")


main()
