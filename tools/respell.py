#!/usr/bin/env python3
"""Brings this repository's own names to Rattle's spelling: types in upper camel case, every other definition, law, field and local name in snake case.

usage: tools/respell.py [--check] [FOLDER]     FOLDER is the top of a checkout; the folder above this file if none is given

A name is the repository's own if a file of specs/ or proofs/ declares it or binds it. Names that Rattle makes of the code (goals, and what stands behind them)
and names of the kit's libraries are left. Where a law would get the name of a definition it ends in `_lem`. Words are turned whole: in crates/
everywhere but in strings, in documents inside backquotes. --check turns nothing, prints each own name that is not spelled so, and fails if there is one.
"""

import collections
import pathlib
import re
import sys

WORD = re.compile(r'[^\s(){}\[\].;,@"«»`|:]+')
NAME = r'[^\s(){}.;,@"«»:]+'
DECLARES = re.compile(
    r"^(\s*)((?:(?:pub|abbrev|unfoldable|pattern)\s+)*)(" + NAME + r")((?:\s+" + NAME + r")*)\s*(?:\{[^}]*\})?\s*"
    r"(?:\([^:]*:[^)]*\)\s*|\{[^:]*:[^}]*\}\s*)*:(?:\s|$)"
)
# names that are bound inside a line: by `let`, as a parameter, by a λ, by `as`, and as a set of rules
BOUND = [
    re.compile(r"\b(?:let|as|ruleset) (" + NAME + r")"),
    re.compile(r"[({]((?:[A-Za-z][\w'-]*\s+)*[A-Za-z][\w'-]*)\s*:"),
    re.compile(r"λ\s+((?:[A-Za-z][\w'-]*\s*)+)\."),
]
OPENS = re.compile(r"^\s*(?:(?:pub|abbrev|unfoldable)\s+)*(record|data|module)\b")
# the files whose declarations are named by Rattle, after the code
MADE = {"Answers.antt", "Invariants.antt", "Proof.antt"}


# a case that Rattle makes of a join, and the name that its facts are bound to: what stands behind that is named by Rattle
CASE = re.compile(r"(?:then|else)-\S+ (\w+) ↦")


def snake(name):
    parts = re.sub(r"([a-z0-9])([A-Z])", r"\1_\2", name.replace("getD", "get_or")).replace("-", "_")
    return parts.lower() if re.search("[-A-Z]", name) else name


def foreign(name):
    """Whether a name is no word of letters, or is a type's."""
    return name[0].isupper() and "-" not in name or not re.match(r"[A-Za-z]", name) or name == "_"


def declared(top):
    """Each own name with the kinds of its declarations, and for each file the names that are in scope there: declared, or brought in."""
    kinds = collections.defaultdict(set)
    scopes = []
    for file in sorted(top.glob("crates/*/*s/**/*.antt")):
        if "out" in file.relative_to(top).parts:
            continue
        inside = []
        code = re.sub(r"--.*", "", file.read_text())
        scope = {name.split(" as ")[-1].strip() for names in re.findall(r"(?m)^use [^{\n]*\{([^}]*)\}", code) for name in names.split(",")}
        scopes.append(scope)
        for line in code.split("\n"):
            if not line.strip():
                continue
            indent = len(line) - len(line.lstrip())
            while inside and indent <= inside[-1][0]:
                inside.pop()
            for name in (name for form in BOUND for names in form.findall(line) for name in names.split()):
                kinds[name].add("local")
                scope.add(name)
            found = DECLARES.match(line)
            if found and not (file.name in MADE and re.search(rf"\bgoals?\.{re.escape(found[3])}(?![\w'-])", code)):
                field = inside and inside[-1][1] in ("record", "data")
                if not field:
                    scope.add(found[3])
                kinds[found[3]].add("field" if field else "local" if file.name in MADE else "law")
                for name in found[4].split():
                    kinds[name].add("field" if field else "local")
            opens = OPENS.match(line)
            if opens and line.rstrip().endswith("where"):
                inside.append((indent, opens[1]))
            elif not (inside and inside[-1][1] in ("record", "data")):
                inside.append((indent, "term"))
    return {name: kind for name, kind in kinds.items() if not foreign(name)}, scopes


def table(top):
    """Old name to new, of the own names that are not spelled so."""
    kinds, scopes = declared(top)
    same = collections.defaultdict(list)
    for name in kinds:
        same[snake(name)].append(name)
    turned = {}
    for new, olds in same.items():
        # A definition was in camel case (or a script had turned it), a law had dashes: where both are in one scope, the law says by its end that it is one. The
        # proof of a promise was in camel case too, and has the name of the promise's field.
        apart = any(len(scope & set(olds)) > 1 for scope in scopes)
        fields = any("field" in kinds[old] and kinds[old] != {"field"} for old in olds)
        camel = [old for old in olds if re.search("[a-z0-9][A-Z]", old)]
        for old in olds:
            law = old not in camel if camel else "-" in old
            falls = apart and kinds[old] != {"field"} and ("field" not in kinds[old] if fields else law)
            to = new + "_lem" if falls else new
            if to != old:
                turned[old] = to
    return turned


def turn(text, names, cases=()):
    def word(found):
        of_case = any(text.endswith(f"{case}.", 0, found.start()) and not text[: found.start() - len(case) - 1][-1:].isalnum() for case in cases)
        return found[0] if of_case else names.get(found[0], found[0])

    return WORD.sub(word, text)


def code(text, names, comment):
    """Text of Rattle or antt: all words but those in strings; of a comment those in backquotes, and bare ones that cannot be prose."""
    cases = set(CASE.findall(text))
    parts = re.split(r'("(?:[^"\\\n]|\\.)*"|' + comment + r"[^\n]*)", text)
    for at, part in enumerate(parts):
        if at % 2 == 0:
            parts[at] = turn(part, names, cases)
        elif not part.startswith('"'):
            parts[at] = prose(part, names)
    return "".join(parts)


def document(text, names):
    """A document: fenced blocks as code, the rest as prose."""
    parts = re.split(r"(?ms)^(```.*?^```)", text)
    return "".join(turn(part, names) if at % 2 else prose(part, names) for at, part in enumerate(parts))


def prose(text, names):
    camel = {old: new for old, new in names.items() if re.search("[a-z0-9][A-Z]", old)}
    return "".join(turn(part, names if at % 2 else camel) for at, part in enumerate(re.split(r"(`[^`\n]*`)", text)))


def main():
    words = sys.argv[1:]
    check = "--check" in words
    rest = [word for word in words if word != "--check"]
    top = pathlib.Path(rest[0] if rest else pathlib.Path(__file__).resolve().parent.parent)
    names = table(top)
    if check:
        for old, new in sorted(names.items()):
            print(f"  {old}: {new}")
        raise SystemExit(bool(names))
    for file in sorted(top.rglob("*")):
        parts = file.relative_to(top).parts
        if not file.is_file() or {"out", "target", ".git"} & set(parts) or parts[:2] == ("docs", "landings"):
            continue
        if parts[0] == "crates" and file.suffix in (".antt", ".rt", ".edit"):
            old = file.read_text()
            new = code(old, names, "--" if file.suffix == ".antt" else "//")
        elif file.suffix == ".md":
            old = file.read_text()
            new = document(old, names)
        else:
            continue
        if new != old:
            file.write_text(new)
    print(f"respell: {len(names)} names")


main()
