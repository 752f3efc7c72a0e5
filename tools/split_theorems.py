#!/usr/bin/env python3
"""Brings `use` lines to where the names of `model` stand today: usage: split_theorems.py, at the top of a checkout.

The definitions of a module of `model` stand in specs/, its theorems in proofs/, under the same module name. Each line
`use Rattle.model.specs.M.{..}` (or `.proofs.`) in a file below crates/ is split into one for each place, by where the
names are declared in crates/model. A line that brings in a whole module is turned where all that the file takes from it
stands in one place. Nothing but `use` lines is touched, and a second run changes nothing."""
import glob, os, re, sys

MODEL = os.path.join("crates", "model")
WIDTH = 140
USE = re.compile(r"^(?P<head> *(?:ghost |pub )*use )Rattle\.model\.(?P<side>specs|proofs)\.(?P<mod>\w+(?:\.\w+)*)"
                 r"(?:\.\{(?P<names>[^}]*)\})?(?P<alias> as \w+)?(?P<end>;?)[ \t]*$", re.M)

def declared(path):
    """The public names that a file declares; of a data type also the constructors."""
    names, block = set(), None
    if not os.path.exists(path): return names
    for line in open(path, encoding="utf-8"):
        m = re.match(r"( *)((?:(?:unfoldable|abbrev|opaque|pub|data|record) )*)([^\s:({]+)", line)
        if not m or m.group(3).startswith("--"): continue
        indent, marks, name = len(m.group(1)), m.group(2).split(), m.group(3)
        if block and indent <= block[0]: block = None
        if block:
            if block[1] == "data" and indent == block[0] + 2: names.update(line.split(":")[0].split())
            continue
        if "pub" in marks and name != "mod": names.add(name)
        for kind in ("data", "record"):
            if kind in marks: block = (indent, kind)
    return names

places = {}
def place(mod):
    """The names of a module of model in specs/ and in proofs/."""
    if mod not in places:
        rel = os.path.join(*mod.split(".")) + ".antt"
        places[mod] = {side: declared(os.path.join(MODEL, side, rel)) for side in ("specs", "proofs")}
    return places[mod]

def lines_of(head, side, mod, names, alias, end):
    """One line, or as many as the width asks for."""
    start = f"{head}Rattle.model.{side}.{mod}.{{"
    out, row = [], []
    for n in names:
        if row and len(start + ", ".join(row + [n]) + "}" + alias + end) > WIDTH: out.append(row); row = []
        row.append(n)
    if row: out.append(row)
    return [start + ", ".join(r) + "}" + alias + end for r in out]

def turned(text, path):
    def one(m):
        head, side, mod, alias, end = m.group("head"), m.group("side"), m.group("mod"), m.group("alias") or "", m.group("end")
        where = place(mod)
        if not where["proofs"]: return m.group(0)
        if m.group("names") is None:
            word = alias[4:] or mod.split(".")[-1]
            taken = set(re.findall(r"(?<![\w.·'-])" + re.escape(word) + r"\.([^\s(){}.;,]+)", text[:m.start()] + text[m.end():]))
            sides = {s for n in taken for s in ("specs", "proofs") if n in where[s]}
            if len(sides) == 1: return f"{head}Rattle.model.{sides.pop()}.{mod}{alias}{end}"
            if len(sides) > 1 or not os.path.exists(os.path.join(MODEL, side, *mod.split(".")) + ".antt"):
                print(f"by hand: {path}: {m.group(0).strip()}: it takes {' '.join(sorted(taken)) or 'nothing'}")
            return m.group(0)
        names = [n.strip() for n in m.group("names").split(",") if n.strip()]
        out = {"specs": [], "proofs": []}
        for n in names:
            other = "proofs" if side == "specs" else "specs"
            if n in where[side]: out[side].append(n)
            elif n in where[other]: out[other].append(n)
            else:
                out[side].append(n)
                print(f"by hand: {path}: {mod} declares no {n}")
        if out[side] == names: return m.group(0)
        return "\n".join(l for s in ("specs", "proofs") for l in lines_of(head, s, mod, out[s], alias, end))
    return USE.sub(one, text)

def main():
    if not os.path.isdir(MODEL): sys.exit(__doc__)
    count = 0
    for kind in ("specs/**/*.antt", "proofs/**/*.antt", "src/**/*.rt"):
        for path in sorted(glob.glob(os.path.join("crates", "*", *kind.split("/")), recursive=True)):
            text = open(path, encoding="utf-8").read()
            new = turned(text, path)
            if new != text:
                open(path, "w", encoding="utf-8").write(new)
                count += 1
    print(f"{count} files turned")

main()
