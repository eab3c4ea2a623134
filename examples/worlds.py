"""The examples' worlds of several nodes, for the scripts here that run them in many ways."""
import pathlib
import re
import subprocess


def said(path, suffix):
    """What stands beside an example, or nothing."""
    beside = path.with_suffix(suffix)
    return beside.read_text().strip() if beside.exists() else ""


def worlds():
    """The world parts of several nodes that have no fault, as (name, nodes, text)."""
    for path in sorted(pathlib.Path(__file__).resolve().parent.glob("*.vp")):
        whole = path.read_text(encoding="latin-1")  # a file with a fault may hold any byte
        world = re.split(r"(?m)^(?:schedule|history)$", whole)[0]
        nodes = re.match(r"cluster (\d+)\n", world)
        if nodes and int(nodes[1]) > 1 and said(path, ".words") != "compile" and said(path, ".status") != "3":
            yield path.stem, int(nodes[1]), world


def run(program, words, text):
    return subprocess.run([program, *words], input=text, capture_output=True, text=True, check=False)
