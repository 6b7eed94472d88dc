"""Writes a theory of declarations whose names have 1 to 12 letters, of a size in bytes. With a third word, `fresh`, each declaration has
a name of its own and longer classes, of names that were declared before.

usage: make_text.py SIZE FILE [fresh]
"""
import pathlib
import random
import string
import sys

sys.path.insert(0, str(pathlib.Path(__file__).resolve().parent.parent.parent / "tools"))
from common import Words, stop  # noqa: E402

words = Words(__doc__, most=3).rest
if len(words) < 2 or not words[0].isdigit() or words[2:] not in ([], ["fresh"]):
    stop("a size and a file are wanted; see --help")
size, file, fresh = int(words[0]), words[1], words[2:] == ["fresh"]
rng = random.Random(7)


def name():
    word = "".join(rng.choice(string.ascii_lowercase) for _ in range(rng.randint(1, 12)))
    return "typ" if word == "type" else word


known = [name() for _ in range(1000)]


def declaration():
    if not fresh:
        return f"{rng.choice(known)} : {rng.choice(known)} -> {rng.choice(known)}.\n"
    operands = [" ".join(rng.choice(known) for _ in range(rng.randint(1, 3))) for _ in range(rng.randint(1, 3))]
    declared = known[rng.randrange(1000)] = name()
    return f"{declared} : {' -> '.join(operands)}.\n"


with open(file, "w") as out:
    written = out.write("%sig Speed = {\n")
    while written < size:
        written += out.write(declaration())
    out.write("}.\n")
