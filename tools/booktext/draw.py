"""Running Graphviz on the picture of a book."""
import shutil
import subprocess

from . import Trouble
from .dot import dot_text, in_order, node, skeleton

SUFFIXES = (".svg", ".png", ".pdf", ".dot")


def run_dot(form, given):
    try:
        done = subprocess.run(["dot", f"-T{form}"], input=given.encode(), capture_output=True, timeout=120, check=False)
    except OSError as wrong:
        raise Trouble(f"cannot run dot: {wrong.strerror}") from None
    except subprocess.TimeoutExpired:
        raise Trouble("dot gave no picture in 120 seconds: --used draws less") from None
    if done.returncode:
        raise Trouble(f"dot failed: {done.stderr.decode(errors='replace').strip()}")
    return done.stdout


def places(given):
    """How far right dot puts each node."""
    lines = (line.split(" ") for line in run_dot("plain", given).decode().splitlines())
    return {words[1]: float(words[2]) for words in lines if words[0] == "node"}


def keeps(picture, across, found):
    """Does a layout have every level in the order that across says, its word at the left?"""
    for level, ases in in_order(picture, across):
        row = [found[f"level_{level}"]] + [found[node(a)] for a in ases]
        if row != sorted(row):
            return False
    return True


def settled(picture):
    """The text for dot. Which side of its AS a link leaves at goes by the order of the ASes, and dot's order goes by the sides too:
    a few layouts are tried, and if none keeps its order, dot is made to."""
    if not installed():
        return dot_text(picture, {a: k for k, a in enumerate(picture.ases)}, forced=True)
    found = places(skeleton(picture))
    for _ in range(4):
        across = {a: found[node(a)] for a in picture.ases}
        final = dot_text(picture, across, forced=False)
        found = places(final)
        if keeps(picture, across, found):
            return final
    return dot_text(picture, across, forced=True)


def installed():
    return shutil.which("dot") is not None


def render(picture, suffix):
    """The bytes of the picture."""
    if suffix == ".dot":
        return settled(picture).encode()
    if not installed():
        raise Trouble("drawing needs Graphviz, and dot is not installed (package graphviz); -o with a name that ends in .dot writes the text for it")
    return run_dot(suffix[1:], settled(picture))
