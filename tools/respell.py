#!/usr/bin/env python3
"""Respells the repository's own definitions and lemmas, after port.py: words in snake case, types and facts in camel case.

usage: python3 tools/respell.py          at the top of the repository: rewrites the files below crates/, and crates.txt
       python3 tools/respell.py names    writes nothing, and prints each name with its new spelling

It also renames the crates whose names the kit's libraries have now, as CRATES says. Functions of src/, exported names,
strings and comments keep their spelling. It was run once, on the commit that docs/PORT.md names.
"""

import os
import re
import shutil
import sys

CRATES = {"bytes": "octets", "sha2": "sha256", "hex": "hex_text"}

# names that the rule below would spell alike with another name, or not well
GIVEN = {
    "put-mid": "put_middle",
    "Keccak-f": "keccak_f",
    "Next-submit": "NextSubmitEnters",
    "Next-commit": "NextCommitEnters",
    "DataSigned-at": "DataSignedAt",
    "A-length": "length_A",
    "b-is": "b_is",
    "nextWord": "next_word",
    "oneRound": "one_round",
    "fourAt": "four_at",
    "lF": "length_F",
    "getD-zeros": "get_or_zeros",
    "take-submit": "take_submit",
    "take-commit": "take_commit",
}

# names of the library of which a lemma may be one side
WORDS = set("length take drop append map sum set insert replicate get_or slice_get slice_set slice_index push".split())

NAME = r"[^\s(){}\[\],;.:→λ«»\"]+"
DECLARED = re.compile(r"^(\s*)((?:abbrev |unfoldable |pub )*)(" + NAME + r"(?: " + NAME + r")*) :(?= |$)")
TYPED = re.compile(r"^(\s*)((?:pub )?(?:record|data) (?:pub )?)(" + NAME + ")")
ANSWERS = ("Answers.antt", "Choices.antt", "Invariants.antt", "Proof.antt")


def files(ending):
    for folder, dirs, names in os.walk("crates"):
        dirs[:] = sorted(d for d in dirs if d != "out")
        for name in sorted(names):
            if name.endswith(ending):
                yield os.path.join(folder, name)


def declared():
    """Each name that a file of specs or of lemmas declares, with what it is: a type or fact, a definition, or a lemma."""
    found = {}
    for path in files(".antt"):
        if os.path.basename(path) in ANSWERS:
            continue
        with open(path, encoding="utf-8") as file:
            for line in file:
                line = re.sub(r"(^|\s)--(\s.*)?$", "", line.rstrip("\n"))
                typed = TYPED.match(line)
                if typed:
                    found.setdefault(typed.group(3), set()).add("fact")
                    continue
                plain = DECLARED.match(line)
                if plain:
                    kind = "lemma"
                    if "abbrev" in plain.group(2) or "unfoldable" in plain.group(2):
                        kind = "definition"
                    if re.search(r"Type [01]$", line) and plain.group(3)[0].isupper():
                        kind = "fact"
                    for name in plain.group(3).split():
                        found.setdefault(name, set()).add(kind)
    return found


def snake(name):
    return re.sub(r"(?<=[a-z])(?=[A-Z])", "_", name).replace("-", "_")


def sides(parts, known):
    """The parts joined into names that are known, the longest first, or None."""
    if not parts:
        return []
    for n in range(len(parts), 0, -1):
        front = "-".join(parts[:n])
        if front in known or front.replace("-", "_") in known:
            rest = sides(parts[n:], known)
            if rest is not None:
                return [front.replace("-", "_")] + rest
    return None


def spellings():
    found = declared()
    known = {name for name, kinds in found.items() if "definition" in kinds and name[0].islower()} | WORDS
    new = {}
    for name, kinds in found.items():
        if name in GIVEN:
            new[name] = GIVEN[name]
        elif "-" not in name.strip("-") or "◌" in name:
            continue
        elif "fact" in kinds:
            new[name] = "".join(part[0].upper() + part[1:] for part in name.split("-"))
        elif name[0].isupper():
            front, rest = name.split("-", 1)
            new[name] = front + "-" + snake(rest)
        elif "definition" in kinds:
            new[name] = snake(name)
        else:
            both = sides(name.split("-"), known) or []
            calls = [side for side in both if side in WORDS or "_" in side]
            new[name] = "-".join(both) if len(both) > 1 and calls else snake(name)
    return {old: spelled for old, spelled in new.items() if spelled != old}


TOKEN = re.compile(r"\"(?:\\.|[^\"\\])*\"|" + NAME)
ALIAS = re.compile(r"«([^»]*)»")


def respell(text, new, kept, after_dot):
    """The text with its names respelled; a name in `kept` stays, and one behind a dot too where `after_dot` is no."""

    def one(found):
        token = found.group(0)
        if token in kept or token not in new:
            return token
        if not after_dot and found.start() > 0 and text[found.start() - 1] == ".":
            return token
        return new[token]

    return TOKEN.sub(one, text)


def code_and_comment(line, mark):
    """A line cut where its comment begins."""
    inside = False
    for k, char in enumerate(line):
        if char == '"' and (k == 0 or line[k - 1] != "\\"):
            inside = not inside
        if not inside and line.startswith(mark, k) and (mark == "//" or k == 0 or line[k - 1].isspace()):
            return line[:k], line[k:]
    return line, ""


def crate_paths(text, rust):
    for old, spelled in CRATES.items():
        text = re.sub(r"\bRattle\." + old + r"\.", "Rattle." + spelled + ".", text)
        if rust:
            text = re.sub(r"(?<![\w.:])" + old + "::", spelled + "::", text)
    return text


def library_names(text):
    """The names that a file imports from the library, which stay."""
    kept = set()
    for path, names in re.findall(r"use ([\w.·]+)\.\{([^}]*)\}", text):
        crate = path.split(".")[1] if path.startswith("Rattle.") and path.count(".") else ""
        if not os.path.isdir(os.path.join("crates", crate)) or not crate:
            kept |= set(re.split(r"[,\s]+", names))
    return kept


def rewrite(path, new):
    with open(path, encoding="utf-8") as file:
        text = file.read()
    kept = library_names(text)
    rust = path.endswith((".rt", ".edit"))
    after_dot = os.path.basename(path) not in ANSWERS
    mark = "//" if rust else "--"
    lines = []
    for line in text.split("\n"):
        code, comment = code_and_comment(line, mark)
        code = crate_paths(respell(code, new, kept, after_dot), rust)
        lines.append(ALIAS.sub(lambda found: snake(found.group(1)), code) + comment)
    with open(path, "w", encoding="utf-8") as file:
        file.write("\n".join(lines))


def main():
    new = spellings()
    if sys.argv[1:] == ["names"]:
        for old, spelled in sorted(new.items()):
            print(old, spelled)
        return
    for ending in (".antt", ".rt", ".edit"):
        for path in list(files(ending)):
            rewrite(path, new)
    for old, spelled in CRATES.items():
        shutil.move(os.path.join("crates", old), os.path.join("crates", spelled))
    with open("crates.txt", encoding="utf-8") as file:
        lines = file.read()
    for old, spelled in CRATES.items():
        lines = re.sub(r"\b" + old + r"\b", spelled, lines)
    with open("crates.txt", "w", encoding="utf-8") as file:
        file.write(lines)


if __name__ == "__main__":
    main()
