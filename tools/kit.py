"""What the tests ask of the kit beside `rt`: checks and builds of one crate over the libraries that `rt ci` has just proved.

`rt ci` leaves each library as a folder crates/NAME/out/rlib/NAME.rlib that has its statements and its code, and no stamp, unless one stood
there before: that is put back. The other commands of rt build libraries of their own, from nothing where nothing is kept, so `rattle` is
called here as `rt ci` calls it."""
import os, re, shutil, subprocess

ROOT = os.path.dirname(os.path.dirname(os.path.realpath(__file__)))

def kit():
    """The folder of the kit that `rt` belongs to."""
    rt = shutil.which("rt")
    if not rt: raise SystemExit("rt, the command of the Rattle kit, is not there")
    return os.path.dirname(os.path.dirname(os.path.realpath(rt)))

def crates(root=ROOT):
    """The crates of crates.txt: for each whether it is a static library, and the libraries that it names."""
    found = {}
    with open(os.path.join(root, "crates.txt"), encoding="utf-8") as h:
        for line in h:
            m = re.fullmatch(r"(\w+)( staticlib)?\s*:?(.*)", line.split("#")[0].strip())
            if m: found[m.group(1)] = (bool(m.group(2)), m.group(3).split())
    return found

def below(name, root=ROOT):
    """The repository's libraries below a crate."""
    known, found = crates(root), []
    def look(n):
        for d in known[n][1]:
            if d in known and d not in found:
                found.append(d)
                look(d)
    look(name)
    return found

def library(name, root=ROOT): return os.path.join(root, "crates", name, "out", "rlib", name + ".rlib")

def is_proved_by_ci(name, root=ROOT):
    """Whether every library below is one that `rt ci` left: its other commands leave a stamp beside what they build."""
    return all(os.path.isfile(os.path.join(library(d, root), "format"))
               and not os.path.exists(os.path.join(os.path.dirname(library(d, root)), "stamp")) for d in below(name, root))

def words(name, root=ROOT):
    """The words of `rattle check` and `rattle build` for a crate whose folder is the current one."""
    known, at = crates(root), kit()
    is_static, named = known[name]
    ours, theirs = [n for n in named if n in known], [n for n in named if n not in known]
    is_program = os.path.isfile(os.path.join(root, "crates", name, "src", "main.rt"))
    out = ["--crate-name", name, "src/main.rt" if is_program else "src/lib.rt"]
    for n in ["std"] + theirs: out += ["--extern", f"{n}={at}/rlibs/{n}.rlib"]
    out += ["-L", f"dependency={at}/rlibs"]
    for n in ours: out += ["--extern", f"{n}={library(n, root)}"]
    for n in below(name, root): out += ["-L", f"dependency={os.path.dirname(library(n, root))}"]
    out += ["--antt-project", f"{at}/rattle/logic/antt-project.json", "--logic-built", f"{at}/logic_built"]
    return out + (["--crate-type", "staticlib"] if is_static else [])

def rattle(verb, folder, *given):
    """Runs rattle in a folder, and gives its status and what it says."""
    ran = subprocess.run([f"{kit()}/bin/rattle", verb, *given], cwd=folder, stdin=subprocess.DEVNULL, stdout=subprocess.PIPE,
                         stderr=subprocess.STDOUT, encoding="utf-8", errors="replace")
    return ran.returncode, ran.stdout
