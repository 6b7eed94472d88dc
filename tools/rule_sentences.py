"""A sentence for a refusal: what its rule means (docs/guide/rules.md), with what can be read off the text at its place."""
import difflib

from elf_texts import assigned, constants, ends_of, included

# So many names are told in a row.
MOST = 5

# What a rule means, where {name} is what stands at the place, {label} what the program prints as concerned, {module} the module.
SENTENCES = {
    "syntax": "{name} cannot stand here; mostly something in front of it is missing, as a dot",
    "too-deep": "an expression is nested more than 500 deep here",
    "unsupported": "{name} is no part of this language",
    "wrong-name": "the module is written with another name than the one under which it is put",
    "cycle": "{module} rests on itself",
    "unknown-module": "there is no module {name}",
    "wrong-module-kind": "{name} is a {kind}, and a {other_kind} is wanted here",
    "dependency-refused": "{name} is refused itself",
    "duplicate-name": "{module} has declared {label} already",
    "unknown-name": "{name} is nowhere: no variable, nothing that stands above it here, nothing that is included (in {label})",
    "ambiguous-name": "two included theories have the name {name}: write the theory in front (in {label})",
    "level": "a type stands where an object is wanted, or an object where a type is, or a kind, a product or an arrow has no place here (in {label})",
    "not-a-function": "{name} is one argument too many (in {label})",
    "not-canonical": "{name} is not written in full: a type wants all its arguments, and a function that is written out takes none (in {label})",
    "mismatch": "what begins with {name} has another type than the one that is wanted here (in {label})",
    "annotation": "the type that is written here for a variable is not the one that it has (in {label})",
    "unknown-target": "{name} is nothing that the domain declares itself; what the domain includes is mapped by %include",
    "double-assignment": "{name} has been assigned before, or a part of it or a whole around it has",
    "missing-assignment": "{label}, which the domain {domain} declares, is not assigned",
    "definition-clash": "the domain defines {label}, and this is not what its definition becomes: leave the assignment out",
    "include-not-covered": "the domain includes {label}, which is neither included here nor mapped by %include",
    "morphisms-disagree": "one constant gets two images: by two inclusions, by an inclusion and the identity, or by a structure and a definition (in {label})",
    "morphism-ends": "the ends do not meet: {name} begins or ends elsewhere than is wanted here",
    "family-not-atomic": "the value of a family of types is a function type, and has to begin with a name (in {label})",
}
# The same of a file that was refused as a whole.
OF_FILES = {
    "syntax": "the file cannot be divided into modules: {name} cannot stand here",
    "unsupported": "{name} cannot stand between modules",
    "duplicate-name": "there is a module {label} already, in an earlier file or above; the whole file is left out",
    "too-long": "the file, or a module in it, is longer than the limit",
    "too-many": "the library has as many modules as it may have",
    "full": "the library has as many edits or bytes as it may have",
}


def sentence(folder, refusal):
    """The line, the column and the sentence of a cause."""
    line, column = refusal.line, refusal.column
    lines = folder.lines(refusal.file)
    if not refusal.module:
        unclosed = unclosed_in(folder.modules[refusal.file], lines) if refusal.rule == "syntax" else None
        if unclosed:
            return unclosed
    token = lines.token_at(line, column)
    known = {"module": refusal.module, "label": refusal.label, "name": quoted(token, lines, line, column)}
    known |= kinds(folder, refusal) | {"domain": domain_of(folder, refusal)}
    table = SENTENCES if refusal.module else OF_FILES
    text = table.get(refusal.rule, "see docs/guide/rules.md").format(**known)
    return line, column, text + beside(folder, refusal)


def quoted(token, lines, line, column):
    """What stands at a place, as it is told."""
    if lines.start_of(line, column) >= len(lines.text.rstrip()):
        return "the end of the text"
    return f"`{token.text.decode(errors='replace')}`" if token else "this"


def kinds(folder, refusal):
    """Whether the module at the place is a view or a theory, and what is wanted then."""
    kind = folder.kinds.get(folder.name_at(refusal), "module")
    return {"kind": kind, "other_kind": {"view": "theory", "theory": "view"}.get(kind, "module of the other kind")}


def domain_of(folder, refusal):
    """The domain of the view that is refused, as its text has it."""
    module = folder.module(refusal.module)
    return next(iter(ends_of(module) if module else []), "of the view")


def beside(folder, refusal):
    """What else the texts tell of a refusal."""
    if refusal.rule == "cycle":
        return f": {', '.join(folder.on_cycle(refusal.module))} name each other"
    tell = {"mismatch": wanted, "missing-assignment": also_missing, "unknown-name": nearest}.get(refusal.rule)
    return tell(folder, refusal) if tell else ""


def also_missing(folder, refusal):
    """The other constants that the domain declares itself, does not define, and that the view does not assign."""
    view, domain = folder.module(refusal.module), folder.module(domain_of(folder, refusal))
    if view is None or domain is None:
        return ""
    rest = [name for name, is_defined in constants(domain).items() if not is_defined and name not in assigned(view) | {refusal.label}]
    return f"; nor is {', '.join(rest[:MOST])}{' and others' if len(rest) > MOST else ''}" if rest else ""


def nearest(folder, refusal):
    """A name that could be meant: one that is like what stands at the place, of this theory, of those that it includes, or of the codomain."""
    token = folder.lines(refusal.file).token_at(refusal.line, refusal.column)
    known, waiting, seen = {"type"}, [refusal.module], set()
    while waiting:
        name = waiting.pop()
        module = None if name in seen else folder.module(name)
        seen.add(name)
        if module:
            known |= set(constants(module))
            waiting += included(module) + ends_of(module)[1:]
    like = difflib.get_close_matches(".".join(token.names()), known, 1, 0.7) if token and token.is_name() else []
    return f"; perhaps `{like[0]}` is meant" if like else ""


def wanted(folder, refusal):
    """The class that is written for a declared constant, where its whole value is what does not fit."""
    module, lines = folder.module(refusal.module), folder.lines(refusal.file)
    at = lines.start_of(refusal.line, refusal.column)
    before = [token for token in module.tokens if token.start < at] if module else []
    if not before or before[-1].text != b"=":
        return ""
    colon = next((token for token in reversed(before) if token.text in (b":", b".", b"{", b"[")), None)
    if colon is None or colon.text != b":":
        return ""
    written = b" ".join(lines.text[colon.start + 1 : before[-1].start].split()).decode(errors="replace")
    return f"; written for it is the type {written}"


def unclosed_in(found, lines):
    """The place of the first module that begins within an open brace, and a sentence: the brace is to be closed in front of it."""
    for number, module in enumerate(found):
        if module.inside is not None and number:
            front = found[number - 1]
            line, _ = lines.place_of(front.start)
            here, column = lines.place_of(module.start)
            return here, column, f"a brace of {front.name}, which begins in line {line}, is not closed where {module.name} begins"
    return None
