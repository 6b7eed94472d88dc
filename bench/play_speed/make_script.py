"""Writes a script for `mmt play` to a file; of the shape `folder` FILE is a folder for `mmt check`.

usage: make_script.py SHAPE NUMBER FILE

The shapes:

chain    NUMBER theories, each of which includes the last and has a structure of it
plain    NUMBER theories, each of which includes the last and has a constant
empty    NUMBER theories, each of which includes the last, and one more with a constant
single   NUMBER theories of ten constants
copies   a theory with NUMBER structures of a small algebra
many     a theory of NUMBER declarations with a value of eleven nodes
late     the same behind as many further constants
even     a declaration with a value of NUMBER nodes whose halves are even
heavy    NUMBER theories of 1,000 declarations with a value of eleven nodes, which need nothing of each other, and a check
doubled  NUMBER theories of twelve definitions, each of which applies the last one twice, which need nothing of each other, and a check
judged   a small algebra, and NUMBER theories with a hundred structures of it, which need nothing of each other, and a check
edited   NUMBER theories, each of which includes one of those before it, and as many edits, each with a report of a theory behind it
applied  a theory of NUMBER declarations with a value of 400 applications, one in the other
towers   NUMBER theories, each of which has a structure of the last
copied   NUMBER copies of a small hierarchy of algebras, each with a view into a theory of its own, and a check
algebras NUMBER copies, at most 315, of thirteen modules of the example library, from propositions to rings and modules over rings
         with their views, and a check
references  NUMBER theories with a constant, and a theory that includes them all and has as many constants with ten of these names each
dependent   100 values of a constant that takes NUMBER arguments, where each second one's family names the first
nested      100 values of NUMBER λs, with as many names of their variables
definitions a theory of NUMBER definitions, each of which is the last one
viewed      two theories of NUMBER constants, and a view that assigns each of them
given       the same with the constants in a structure of the first theory
shared      two theories of NUMBER structures of one theory, and a view that assigns each of them
included    NUMBER theories with a constant, and a theory that includes them all
levels   300 theories, each of which includes the last, and NUMBER edits of the first, the middle and the last one, each with a check
bottom   NUMBER theories, each of which includes the last, a report of the last one, an edit of the first one, and the report again
refused  the same theories without the edit, where the first one is refused
backward the same theories, the last one put first, and a report of it
rings    NUMBER theories, each of which includes twenty of all, so that most stand on rings, and a check
lowest   NUMBER theories, each of which includes one of those before it, and a hundred edits of the first one, each with a report of the last
middle   the same with a thousand edits of the one in the middle, each with its report
highest  the same with a thousand edits of the last one, each with its report
folder   NUMBER files of a megabyte
"""
import pathlib
import random
import re
import sys

sys.path.insert(0, str(pathlib.Path(__file__).resolve().parent.parent.parent / "tools"))
from common import TOP, Words, stop  # noqa: E402

LIBRARY = TOP / "examples/library"
ALGEBRAS = (
    "Prop", "Set", "Magma", "Semigroup", "CommutativeMagma", "Monoid", "Group", "AbelianGroup", "Ring", "LeftModule",
    "OppositeMonoid", "RingItself", "RegularModule",
)

ALGEBRA = "a : type. op : a -> a -> a. e : a. i : a -> a. d : a = op e (i e)."
TEN = (
    "a : type. f : a -> a. g : a -> a -> a. z : a. b : a = f z. c : a = g z b. p : a -> type. "
    "h : {x:a} p x -> p (f x). k : p z. l : p (f z) = h z k."
)
HEAD = "a : type.\nf : a -> a.\ng : a -> a -> a.\nz : a.\n"
ELEVEN = "g (f (f z)) (g (f z) (f (g z z)))"


def theory(name, body):
    return name, f"%sig {name} = {{ {body} }}."


def constants(count):
    return "".join(f"c{i} : type.\n" for i in range(count))


def view(assignments):
    return "V", f"%view V : A -> B = {{ {assignments} }}."


def linked(count, body):
    yield theory("T0", "a : type.")
    for i in range(1, count):
        yield theory(f"T{i}", body.format(last=f"T{i - 1}", path="." + "s." * (i - 1)))


def even(nodes):
    if nodes <= 1:
        return "z"
    if nodes % 2 == 0:
        return f"(f {even(nodes - 1)})"
    half = (nodes - 1) // 2
    return f"(g {even(half)} {even(half)})"


def values(count):
    return "".join(f"c{i} : a = {ELEVEN}.\n" for i in range(count))


def modules(shape, count):
    match shape:
        case "chain":
            yield from linked(count, "%include {last}. %struct s : {last}. c : a.")
        case "plain":
            yield from linked(count, "%include {last}. c : a.")
        case "empty":
            yield from linked(count, "%include {last}.")
            yield theory("Top", f"%include T{count - 1}. c : a.")
        case "single":
            yield from (theory(f"T{i}", TEN) for i in range(count))
        case "copies":
            yield theory("Algebra", ALGEBRA)
            yield theory("Many", "\n".join(f"%struct m{i} : Algebra." for i in range(count)))
        case "many":
            yield theory("M", HEAD + values(count))
        case "late":
            front = "".join(f"b{i} : type.\n" for i in range(count))
            yield theory("M", front + HEAD + values(count))
        case "even":
            yield theory("M", HEAD + f"d : a = {even(count)}.")
        case "applied":
            value = "f (" * 399 + "f z" + ")" * 399
            yield theory("M", HEAD + "".join(f"c{i} : a = {value}.\n" for i in range(count)))
        case "references":
            yield from (theory(f"T{i}", f"c{i} : type.") for i in range(count))
            front = "".join(f"%include T{i}.\n" for i in range(count))
            draw = random.Random(1)
            names = [" -> ".join(f"c{draw.randrange(count)}" for _ in range(10)) for _ in range(count)]
            yield theory("Top", front + "".join(f"r{i} : {named}.\n" for i, named in enumerate(names)))
        case "dependent":
            pairs = "".join(f"{{x{i}:a}} {{y{i}:p x{i}}} " for i in range(count // 2))
            value = "k" + " z q" * (count // 2)
            yield theory("M", f"a : type. p : a -> type. z : a. q : p z. k : {pairs}a.\n" + "".join(f"c{i} : a = {value}.\n" for i in range(100)))
        case "nested":
            family = "a -> " * count + "a"
            binders = "".join(f"[x{i}:a] " for i in range(count))
            value = f"{binders}k " + " ".join(f"x{i}" for i in range(count))
            yield theory("M", f"a : type. k : {family}.\n" + "".join(f"c{i} : {family} = {value}.\n" for i in range(100)))
        case "definitions":
            yield theory("M", "a : type. z : a. d0 : a = z.\n" + "".join(f"d{i} : a = d{i - 1}.\n" for i in range(1, count)))
        case "viewed":
            yield theory("A", constants(count))
            yield theory("B", constants(count))
            yield view("".join(f"c{i} := c{i}.\n" for i in range(count)))
        case "given":
            yield theory("S", constants(count))
            yield theory("A", "%struct s : S.")
            yield theory("B", constants(count))
            yield view("".join(f"s.c{i} := c{i}.\n" for i in range(count)))
        case "shared":
            yield theory("S", "a : type.")
            structures = "".join(f"%struct s{i} : S.\n" for i in range(count))
            yield theory("A", structures)
            yield theory("B", structures)
            yield view("".join(f"%struct s{i} := B.s{i}.\n" for i in range(count)))
        case "included":
            yield from (theory(f"T{i}", f"c{i} : type.") for i in range(count))
            yield theory("Top", "".join(f"%include T{i}.\n" for i in range(count)))
        case "towers":
            yield from linked(count, "%struct s : {last}. c : s{path}a.")


def heavy(count):
    for i in range(count):
        yield put(*theory(f"T{i}", HEAD + values(1000)))
    yield "check\n"


def doubled(count):
    lines = ["d0 : a -> a = [x:a] g x z."] + [f"d{i} : a -> a = [x:a] d{i - 1} (d{i - 1} x)." for i in range(1, 12)]
    for i in range(count):
        yield put(*theory(f"T{i}", HEAD + "\n".join(lines) + "\n"))
    yield "check\n"


def judged(count):
    yield put(*theory("Algebra", ALGEBRA))
    copies = "\n".join(f"%struct m{i} : Algebra." for i in range(100))
    for i in range(count):
        yield put(*theory(f"T{i}", copies))
    yield "check\n"


def edited(count):
    draw = random.Random(1)
    last = [0] + [draw.randrange(i) for i in range(1, count)]

    def at(i, revision):
        if i == 0:
            return theory("T0", f"a : type. c{revision} : a.")
        return theory(f"T{i}", f"%include T{last[i]}. %struct s : T0. c{revision} : type.")

    for i in range(count):
        yield put(*at(i, 0))
    for revision in range(1, count + 1):
        i = draw.randrange(count)
        told = draw.randrange(count)
        yield f"drop T{i}\n" if draw.randrange(10) == 0 else put(*at(i, revision))
        yield f"report T{told}\n"
    yield "check\nlog\n"


def hierarchy(i):
    """A hierarchy of algebras whose names end in this number, and a view of its top."""
    at = "sg.mag.set."
    yield theory(f"Set{i}", "el : type. eq : el -> el -> type. refl : {x:el} eq x x.")
    yield theory(f"Magma{i}", f"%struct set : Set{i}. op : set.el -> set.el -> set.el.")
    yield theory(
        f"Semigroup{i}",
        f"%struct mag : Magma{i}. "
        "assoc : {x:mag.set.el} {y:mag.set.el} {z:mag.set.el} "
        "mag.set.eq (mag.op (mag.op x y) z) (mag.op x (mag.op y z)).",
    )
    yield theory(f"Monoid{i}", f"%struct sg : Semigroup{i}. e : {at}el. left : {{x:{at}el}} {at}eq (sg.mag.op e x) x.")
    yield theory(
        f"Model{i}",
        "t : type. q : t -> t -> type. r : {x:t} q x x. k : t -> t -> t. u : t. l : {x:t} q (k u x) x. "
        "a : {x:t} {y:t} {z:t} q (k (k x y) z) (k x (k y z)).",
    )
    body = f"{at}el := t. {at}eq := q. {at}refl := r. sg.mag.op := k. sg.assoc := a. e := u. left := l."
    yield f"View{i}", f"%view View{i} : Monoid{i} -> Model{i} = {{ {body} }}."


def copied(count):
    for i in range(count):
        for name, text in hierarchy(i):
            yield put(name, text)
    yield "check\n"


def library_modules(names):
    """The texts of these modules of the example library."""
    found = {}
    for file in sorted(LIBRARY.glob("*.elf")):
        text = re.sub(r"(?m)^ *%[ %].*\n", "", file.read_text())
        for module in re.findall(r"(?ms)^%(?:sig|view) .*?^\}\.$", text):
            found[re.match(r"%(?:sig|view) (\S+)", module)[1]] = module
    return [(name, found[name]) for name in names]


def algebras(count):
    modules = library_modules(ALGEBRAS)
    own = re.compile(r"(?<![^\s.(){}\[\]:])(" + "|".join(ALGEBRAS) + r")(?![^\s.(){}\[\]:])")
    for i in range(count):
        for name, text in modules:
            yield put(f"{name}{i}", own.sub(rf"\g<1>{i}", text))
    yield "check\n"


def levels(count):
    for name, text in linked(300, "%include {last}. c : a."):
        yield put(name, text)
    yield "check\n"
    for i in range(count):
        at = (0, 150, 299)[i % 3]
        front = f"%include T{at - 1}. c : a. " if at else "a : type. "
        yield put(*theory(f"T{at}", front + f"d{i} : a."))
        yield "check\n"


def includes(count, first):
    yield theory("T0", first)
    yield from (theory(f"T{i}", f"%include T{i - 1}.") for i in range(1, count))


def bottom(count):
    yield from (put(*module) for module in includes(count, "a : type."))
    yield f"report T{count - 1}\n"
    yield put(*theory("T0", "a : type. b : type."))
    yield f"report T{count - 1}\n"


def refused(count):
    yield from (put(*module) for module in includes(count, "a : b."))
    yield f"report T{count - 1}\n"


def backward(count):
    yield from (put(*module) for module in reversed(list(includes(count, "a : type."))))
    yield f"report T{count - 1}\n"


def rings(count):
    draw = random.Random(1)
    for i in range(count):
        named = sorted(draw.sample(range(count), min(20, count)))
        yield put(*theory(f"T{i}", " ".join(f"%include T{other}." for other in named if other != i)))
    yield "check\n"


def branching(count, edited_one, edits, told):
    """Theories, each of which includes one of those before it, as the generator makes them, and edits of one of them."""
    draw = random.Random(1)
    last = [0] + [draw.randrange(i) for i in range(1, count)]

    def at(i, revision):
        front = f"%include T{last[i]}. " if i else "a : type. "
        return theory(f"T{i}", front + f"c{i}x{revision} : type.")

    for i in range(count):
        yield put(*at(i, 0))
    yield "check\n"
    for revision in range(1, edits + 1):
        yield put(*at(edited_one, revision))
        yield f"report T{told}\n"


def folder(count, path):
    """Files of a megabyte with theories of two thousand declarations: so the library stays below the most modules that it may have."""
    path.mkdir(parents=True, exist_ok=True)
    for i in range(count):
        modules = []
        size = number = 0
        while size < 1_000_000:
            name, text = theory(f"F{i}x{number}", HEAD + values(2_000))
            modules.append(text + "\n")
            size += len(text) + 1
            number += 1
        (path / f"f{i}.elf").write_text("".join(modules))


def put(name, text):
    return f"put {name}\n{text}\n%%end\n"


def pieces(shape, count):
    match shape:
        case "heavy":
            yield from heavy(count)
        case "doubled":
            yield from doubled(count)
        case "judged":
            yield from judged(count)
        case "edited":
            yield from edited(count)
        case "copied":
            yield from copied(count)
        case "algebras":
            yield from algebras(count)
        case "levels":
            yield from levels(count)
        case "bottom":
            yield from bottom(count)
        case "refused":
            yield from refused(count)
        case "backward":
            yield from backward(count)
        case "rings":
            yield from rings(count)
        case "lowest":
            yield from branching(count, 0, 100, count - 1)
        case "middle":
            yield from branching(count, count // 2, 1000, count // 2)
        case "highest":
            yield from branching(count, count - 1, 1000, count - 1)
        case _:
            name = ""
            for name, text in modules(shape, count):
                yield put(name, text)
            yield f"report {name}\n"


def main():
    words = Words(__doc__, most=3).rest
    if len(words) < 3 or not words[1].isdigit():
        stop("a shape, a number and a file are wanted; see --help")
    shape, count, file = words[0], int(words[1]), words[2]
    if not re.search(rf"^{re.escape(shape)} ", __doc__, re.MULTILINE):
        stop(f"no such shape: {shape}; see --help")
    if shape == "folder":
        folder(count, pathlib.Path(file))
        return
    with open(file, "w") as script:
        script.writelines(pieces(shape, count))


main()
