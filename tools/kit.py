"""The prover itself, `rattle`, where `rt` has no command: over the libraries that `rt ci`, or else `rt lib`, left in crates/*/out."""
import os
import re
import shutil
import subprocess
import sys

ROOT = os.path.dirname(os.path.dirname(os.path.abspath(__file__)))


class Refused(Exception):
    """A command of the kit failed; its text is what the command said."""


def home():
    """The kit's folder."""
    if not shutil.which("rt"):
        sys.exit("no rt: the Rattle toolchain is needed (README.md)")
    return os.path.dirname(subprocess.run(["rt", "doc"], check=True, text=True, stdout=subprocess.PIPE).stdout.strip())


def crates(root=ROOT):
    """Kind and libraries of each crate of crates.txt."""
    with open(os.path.join(root, "crates.txt")) as f:
        return {name: (kind.strip(), words.split()) for name, kind, words in re.findall(r"(?m)^(\w+)([^:#\n]*): *(.*)$", f.read())}


def below(name, root=ROOT):
    """The repository's libraries below a crate, each after those that it uses."""
    listed, found = crates(root), []

    def visit(crate):
        for other in listed[crate][1]:
            if other in listed and other not in found:
                visit(other)
                found.append(other)
    visit(name)
    return found


def folder(name, root=ROOT):
    return os.path.join(root, "crates", name)


def rlib(name, root=ROOT):
    return os.path.join(folder(name, root), "out", "rlib", name + ".rlib")


def words(name, root=ROOT):
    """What `rattle check` and `rattle build` of a crate are given; they run in its folder, or in that of a copy."""
    kit, (kind, used), own = home(), crates(root)[name], below(name, root)
    program = os.path.exists(os.path.join(folder(name, root), "src", "main.rt"))
    found = ["--crate-name", name, "src/main.rt" if program else "src/lib.rt"]
    for library in ["std", *(u for u in used if u not in own)]:
        found += ["--extern", f"{library}={kit}/rlibs/{library}.rlib"]
    found += ["-L", f"dependency={kit}/rlibs"]
    for library in used:
        found += ["--extern", f"{library}={rlib(library, root)}"] if library in own else []
    for library in own:
        found += ["-L", f"dependency={os.path.dirname(rlib(library, root))}"]
    found += ["--antt-project", f"{kit}/rattle/logic/antt-project.json", "--logic-built", f"{kit}/logic_built", "--links", f"{name}="]
    return found + (["--crate-type", "staticlib"] if kind == "staticlib" else [])


def of_ci(name, root=ROOT):
    """The library in a crate's out/ is one that `rt ci` made, or took from an earlier run, of the files that stand there."""
    made = rlib(name, root)
    if not os.path.exists(os.path.join(made, "format")) or os.path.exists(os.path.join(os.path.dirname(made), "stamp")):
        return False
    changed = 0
    for part in ("src", "specs", "proofs"):
        for at, _, files in os.walk(os.path.join(folder(name, root), part)):
            changed = max([changed, os.stat(at).st_mtime, *(os.stat(os.path.join(at, file)).st_mtime for file in files)])
    return changed <= os.stat(made).st_mtime


def ready(name, root=ROOT):
    """Sees to the libraries below a crate: those of `rt ci` where each is one, and else those of `rt lib`, which proves what was not proved before."""
    if not all(of_ci(library, root) for library in below(name, root)):
        for library in crates(root)[name][1]:
            if library in crates(root):
                run(["rt", "lib"], folder(library, root))


def run(command, where):
    ran = subprocess.run(command, cwd=where, text=True, errors="replace", stdin=subprocess.DEVNULL, stdout=subprocess.PIPE, stderr=subprocess.STDOUT)
    if ran.returncode:
        raise Refused(ran.stdout)
    return ran.stdout


def build_static(name, flags, root=ROOT):
    """A static library, proved and compiled: its archive."""
    archive = os.path.join("out", f"lib{name}.a")
    os.makedirs(os.path.join(folder(name, root), "out"), exist_ok=True)
    ready(name, root)
    said = run([f"{home()}/bin/rattle", "build", *words(name, root), "--jobs", str(os.cpu_count()), "--toolchain", f"{home()}/toolchain", "--backend", "llvm", *flags,
                "-o", archive], folder(name, root))
    if not re.search(r"^logic=proved ", said, re.M):
        raise Refused(said)
    return os.path.join(folder(name, root), archive)
