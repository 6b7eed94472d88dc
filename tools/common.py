"""What the scripts of this folder share: the top of the repository, the program, and how words are read and refused.

A script prints what it found on standard output, and messages on standard error. It ends with 0 where all is as it should be, with 1
where something is not, and with 2 where it cannot begin: a word that it does not know, a program that is not built."""
import os
import pathlib
import re
import signal
import sys

TOP = pathlib.Path(__file__).resolve().parent.parent
CRATES = TOP / "crates"
LAYOUT = TOP / "crates.txt"
PROGRAM_CRATE = "mmt_cli"
# The parts of a crate that the proof of a program reads.
PARTS = ("src", "specs", "proofs")


def stop(message):
    """Ends the script with 2 and a message under its name."""
    print(f"{script()}: {message}", file=sys.stderr)
    sys.exit(2)


def script():
    """The name of the script that runs, as one calls it from the top of the repository."""
    path = pathlib.Path(sys.argv[0]).resolve()
    return str(path.relative_to(TOP)) if path.is_relative_to(TOP) else path.name


class Words:
    """The words behind a script's name: flags, options with a value, and what is left. `--help` prints the script's own page."""

    def __init__(self, page, flags=(), options=(), most=None):
        self.page, self.flags, self.options, self.rest = page.strip(), set(), {}, []
        words = iter(sys.argv[1:])
        for word in words:
            name, equals, value = word.partition("=")
            if word in ("--help", "-h"):
                # (whoever reads it may have enough)
                signal.signal(signal.SIGPIPE, signal.SIG_DFL)
                print(self.page)
                sys.exit(0)
            if word in flags:
                self.flags.add(word)
            elif name in options:
                self.options[name] = value if equals else next(words, None)
                if not self.options[name]:
                    stop(f"{name} wants a value; see --help")
            elif word.startswith("-") or most is not None and len(self.rest) == most:
                stop(f"no such word: {word}; see --help")
            else:
                self.rest.append(word)

    def one_of(self, flags):
        """The one of these flags that was given, or None."""
        given = [flag for flag in flags if flag in self.flags]
        if len(given) > 1:
            stop(f"{given[0]} and {given[1]} do not go together; see --help")
        return given[0] if given else None

    def program(self):
        """The program to run: that of `--program FILE`, or else the built one. Nothing is proved or built here."""
        named = self.options.get("--program")
        if named:
            return runnable(pathlib.Path(named))
        return built_program()

    def before(self):
        """The other program of `--before FILE`, or None."""
        named = self.options.get("--before")
        return runnable(pathlib.Path(named)) if named else None


def runnable(path):
    if not path.is_file() or not os.access(path, os.X_OK):
        stop(f"{path} is no program")
    return str(path.resolve())


def built_program():
    """The program that ./mmt proved and built, if no source has changed since."""
    program = CRATES / PROGRAM_CRATE / "out" / PROGRAM_CRATE
    if not program.is_file():
        stop("the program is not built yet: call ./mmt first, or name one by --program FILE")
    built = program.stat().st_mtime_ns
    for source in sources(PROGRAM_CRATE):
        if source.stat().st_mtime_ns > built:
            stop(f"{source.relative_to(TOP)} has changed since the program was built: call ./mmt first, or name one by --program FILE")
    return runnable(program)


def layout():
    """Each crate of crates.txt in order: its heading, and the crates of this repository that its line names."""
    heading, found = "", {}
    for line in LAYOUT.read_text().splitlines():
        if line.startswith("#"):
            heading = line[1:].strip()
        elif ":" in line:
            name, _, named = line.partition("#")[0].partition(":")
            found[name.split()[0]] = (heading, named.split())
    return {name: (heading, [dep for dep in deps if dep in found]) for name, (heading, deps) in found.items()}


def standing_on(crate, known):
    """A crate and all that it stands on, in the order of crates.txt."""
    found, waiting = set(), [crate]
    while waiting:
        name = waiting.pop()
        if name not in found:
            found.add(name)
            waiting.extend(known[name][1])
    return [name for name in known if name in found]


def sources(program):
    """The files that the proof of a program reads."""
    yield LAYOUT
    yield TOP / "HANDLES"
    for name in standing_on(program, layout()):
        for part in PARTS:
            yield from (file for file in (CRATES / name / part).rglob("*") if file.is_file())


def first_sentence(file, ends="."):
    """The comment that a source begins with, up to the first of these signs outside of parentheses, as a cell of a table."""
    comment = []
    for line in file.read_text().splitlines():
        found = re.match(r"(?:--|//!|///?) ?(.*)", line)
        if not found:
            break
        comment.append(found[1].strip())
    told, *others = re.split(rf"(?<=[{ends}])(?:\s|$)", " ".join(comment))
    while others and told.count("(") > told.count(")"):
        told += f" {others.pop(0)}"
    return told.rstrip(ends).replace("|", "\\|")
