#!/usr/bin/env python3
"""Brings the repository's own definitions and lemmas to today's spelling: words in snake case, types and facts in upper camel case.

Run once at the top of a checkout, right after the kit's own script, and with nothing else changed since. It turns the names that specs/ and
proofs/ give with a dash in them, wherever they stand: in definitions, proofs, clauses, edits, and between backticks in comments and pages.
It leaves the names that the prover makes (of goals and steps) and those of the library. `--list` only prints what would be turned.
"""
import glob
import re
import sys

WORD = r"A-Za-z0-9_'"
TOKEN = re.compile(rf"(?<![{WORD}·-])[A-Za-z][{WORD}]*(?:-[{WORD}]+)+(?![{WORD}+-])")
SIGNATURE = re.compile(rf"^ *((?:abbrev |unfoldable )?(?:pub )?(?:record |data |ruleset )?)([A-Za-z][{WORD}-]*)((?: [(]{{1}}[^:]*[)])*) *: ?(.*)$", re.M)
USE = re.compile(r"use ([^\s{};]+)\.\{([^}]*)\}")
ALIAS = re.compile(rf"\bas ([A-Za-z][{WORD}]*(?:-[{WORD}]+)+)")

# Facts that had a name in small letters.
FACTS = {
    "account-cause", "rows-cause", "count-cause", "plain-within", "inspect-cause", "task-cause", "only-empty", "best-cause",
    "turning-patterns", "trimming-patterns", "trim-cause", "saw-patterns", "saw-cause", "either-patterns",
}

# Names that would fall together with another: a function of src/, the type that they speak of, a case of an enum.
OTHERS = {
    "item-line": "line_of_item", "job-line": "line_of_job", "kind-line": "line_of_kind", "row-line": "line_of_row", "plate-line": "line_of_plate",
    "better-of": "better_division", "lay-strip": "rows_of_strip", "greatest-worth": "greatest_worth_lem",
    "two-staged": "two_staged_pattern", "three-staged": "three_staged_pattern", "only-empty": "OnlyEmptyList",
    "two-staged-is-named": "two_staged_is_named_lem", "three-staged-is-named": "three_staged_is_named_lem",
    "two-staged-recursions": "two_staged_recursions_lem", "three-staged-recursions": "three_staged_recursions_lem",
    "Two-staged-recursions": "TwoStagedRecursionsHold", "Three-staged-recursions": "ThreeStagedRecursionsHold",
    "wheel-kinds": "pinwheel_kinds", "wheel-rows": "pinwheel_rows", "Numbers-of": "numbers_of",
}


def read(path):
    with open(path, encoding="utf-8") as file:
        return file.read()


def is_answer(path):
    return path.rsplit("/", 1)[1] in ("Answers.antt", "Invariants.antt", "Proof.antt")


def crates():
    lines = (line.split("#")[0] for line in read("crates.txt").splitlines())
    return {line.split(":")[0].split()[0] for line in lines if line.strip()}


def imported(text, own):
    """The names that a file takes from the library or from what the prover makes."""
    names = set()
    for match in USE.finditer(text):
        module, listed = match.groups()
        parts = module.split(".")
        is_own = parts[0] == "Rattle" and len(parts) > 1 and parts[1] in own and parts[-1] not in ("Goals", "Given")
        if not is_own:
            names |= set(re.findall(rf"[A-Za-z][{WORD}-]*-[{WORD}+-]+", listed))
    return names


def spelled(name):
    if name in OTHERS:
        return OTHERS[name]
    if name in FACTS or name[0].isupper():
        return "".join(part[0].upper() + part[1:] for part in name.split("-"))
    return name.replace("-", "_")


def own_names(files, own):
    names = set()
    for path in files:
        text = re.sub(r"--.*", "", read(path))
        for match in SIGNATURE.finditer(text):
            name, kind = match.group(2), match.group(4)
            if "-" in name and not (is_answer(path) and "goal." in kind):
                names.add(name)
        names |= set(ALIAS.findall(text)) - imported(re.sub(r"\bas \S+", "", text), own)
        if not is_answer(path):
            taken = imported(text, own)
            for line in text.splitlines():
                for match in TOKEN.finditer(line):
                    if match.group(0) not in taken and not re.match(r"\s*use ", line):
                        names.add(match.group(0))
    return names


def turn(text, names):
    return TOKEN.sub(lambda match: spelled(match.group(0)) if match.group(0) in names else match.group(0), text)


def turn_code(text, names):
    """All but the string literals."""
    return "".join(part if part.startswith('"') else turn(part, names) for part in re.split(r'("[^"\n]*")', text))


def turn_quoted(text, names):
    return re.sub(r"`[^`\n]*`", lambda match: turn(match.group(0), names), text)


def turn_row_line(path, line):
    """The kit's script spelled the definition `row-line` as the function of src/ is spelled."""
    if path.endswith(".rt") and not re.match(r"\s*(ghost use|requires|ensures)", line):
        return line
    return re.sub(rf"(?<![{WORD}.-])row_line(?![{WORD}-])", "line_of_row", line)


def turn_file(path, names, own, here):
    text = read(path)
    if path.endswith(".md"):
        # the kit's script turned some names too, but not on these pages
        quoted = {match.group(0) for match in TOKEN.finditer(text)}
        return turn_quoted(text, names | {name for name in quoted if spelled(name) in here})
    names = names - imported(text, own)
    if path.endswith(".edit"):
        return turn(text, names)
    mark = "--" if path.endswith(".antt") else "//"
    lines = []
    for line in text.splitlines(keepends=True):
        at = line.find(mark)
        code, comment = (line, "") if at < 0 else (line[:at], line[at:])
        lines.append(turn_row_line(path, turn_code(code, names)) + turn_quoted(comment, names))
    return "".join(lines)


def main():
    own = crates()
    specs = sorted(glob.glob("crates/*/specs/**/*.antt", recursive=True) + glob.glob("crates/*/proofs/**/*.antt", recursive=True))
    sources = sorted(glob.glob("crates/*/src/**/*.rt", recursive=True))
    edits = sorted(glob.glob("crates/*/must-fail/*.edit"))
    pages = sorted(glob.glob("docs/*.md") + glob.glob("*.md"))
    names = own_names(specs, own)
    for path in sources:
        names |= set(ALIAS.findall(re.sub(r"//.*", "", read(path))))
    made = {}
    for name in names:
        made.setdefault(spelled(name), set()).add(name)
    here = set()
    for path in specs + sources:
        here |= set(re.findall(rf"(?<![{WORD}-])[A-Za-z][{WORD}]*(?![{WORD}-])", re.sub(r"(--|//).*", "", read(path))))
    for new, old in sorted(made.items()):
        if len(old) > 1:
            print(f"falls together: {' '.join(sorted(old))} -> {new}")
        if new in here:
            print(f"stands already: {new}")
    if "--list" in sys.argv:
        for name in sorted(names):
            print(f"{name} -> {spelled(name)}")
        return
    for path in specs + sources + edits + pages:
        text = read(path)
        new = turn_file(path, names, own, here)
        if new != text:
            with open(path, "w", encoding="utf-8") as file:
                file.write(new)


main()
