#!/usr/bin/env python3
"""Respells this repository's own names as today's Rattle spells them. Run once, at the top, right after port.py.

- definitions, fields and lemmas of specs/ and proofs/ go to snake case: leafOf to leaf_of, below-head to below_head;
- where a definition and a lemma would then have one name, the lemma gets _lem;
- a dash that joins the name of a definition in camel case to another name stays: isOpened-append to is_opened-append;
- specs/Contracts becomes specs/Clauses, since Rattle makes a module `contracts` there;
- the crate log becomes answer_log, since the kit has a library of that name.

Functions of src/, exported names and strings keep their names. It reads .rt and .antt files, and the edits of must-fail/
and mistakes/.
"""
import collections
import glob
import os
import re
import subprocess

DECLARED = re.compile(
    r"^\s*(?:(?:abbrev|unfoldable|pub|record|data)\s+)*([^\s():{}⌜⌝,;.]+)\s*(?:[({].*)?:(?:\s|$)"
)
# Where a snake-case name means something else in the file that would import it.
APART = {
    "answerBytes": "bytes_of_answer",
}
# Names that the library has too, which spells them so.
LIBRARY = {"or-false", "and-true"}
TOKEN = re.compile(r"[^\s(){}\[\],;.⌜⌝\"`|]+")


def antt_files():
    return sorted(
        glob.glob("crates/*/specs/**/*.antt", recursive=True)
        + glob.glob("crates/*/proofs/**/*.antt", recursive=True)
    )


def declared():
    """The names that specs/ and the shared files of proofs/ declare, each with its files."""
    names = collections.defaultdict(set)
    for file in antt_files():
        if "/proofs/" in file and file.split("/proofs/")[1].count("/"):
            continue
        for line in open(file):
            found = None if line.lstrip().startswith("--") else DECLARED.match(line)
            if found:
                names[found[1]].add(file)
    for file in antt_files() + sorted(glob.glob("crates/*/src/**/*.rt", recursive=True)):
        for item in re.findall(r"(?m)^(?:ghost |pub )*use\s[^\n]*", open(file).read()):
            for name in re.findall(r"\sas\s+([^\s,{};]+)", item):
                names[name].add(file)
    return {name: files for name, files in names.items() if name not in LIBRARY}


def snake(name):
    return re.sub(r"([a-z0-9])([A-Z])", lambda m: m[1] + "_" + m[2].lower(), name)


def respelled(names):
    new, lemmas = {}, {}
    for name in sorted(names):
        plain = name.replace("′", "'")
        if name in APART:
            new[name] = APART[name]
        elif re.fullmatch(r"[a-z][A-Za-z0-9']*", plain) and re.search("[A-Z]", plain):
            new[name] = snake(plain)
        elif re.fullmatch(r"[a-z0-9'_-]+", plain) and "-" in plain:
            lemmas[name] = plain.replace("-", "_")
        elif re.fullmatch(r"[a-z][A-Za-z0-9'-]+", plain) and "-" in plain:
            lemmas[name] = snake(plain)
        elif plain != name:
            new[name] = plain
    # a lemma that port.py gave the name that a definition gets here
    for to in [it for it in new.values() if it in names and not any("/specs/" in file for file in names[it])]:
        new[to] = to + "_lem"
    taken = {*new.values(), *(it for it in names if it not in new and it not in lemmas)}
    for name, to in lemmas.items():
        new[name] = to + "_lem" if to in taken else to
    return new


def turned_token(found, new, in_comment, of_function):
    token = found[0]
    before = found.string[found.start() - 1 : found.start()]
    # a step of a function's proof, which Rattle names
    is_step = of_function and before == "." and token.lower() == token
    if is_step or in_comment and "-" in token:
        return token
    return new.get(token, token)


def turned_line(line, new, mark, of_function=False):
    """A line with its names turned: in its comment those in camel case alone, in a string none."""
    at = line.find(mark) if not line.lstrip().startswith(mark) else line.index(mark)
    code, comment = (line, "") if at < 0 else (line[:at], line[at:])
    pieces = re.split(r'("(?:[^"\\]|\\.)*")', code)
    code = "".join(
        it if k % 2 else TOKEN.sub(lambda m: turned_token(m, new, False, of_function), it)
        for k, it in enumerate(pieces)
    )
    return code + TOKEN.sub(lambda m: turned_token(m, new, True, of_function), comment)


def moved_paths(text):
    text = re.sub(r"\.specs\.Contracts\b", ".specs.Clauses", text)
    text = re.sub(r"\bRattle\.log\.", "Rattle.answer_log.", text)
    return re.sub(r"\b(specs/)Contracts\b", r"\1Clauses", text)


def main():
    new = respelled(declared())
    for file in antt_files():
        lines = open(file).read().split("\n")
        of_function = "/proofs/" in file and "/" in file.split("/proofs/")[1]
        lines = [turned_line(it, new, "--", of_function) for it in lines]
        if file.endswith("specs/Lib.antt"):
            lines = [it.replace("pub mod Contracts", "pub mod Clauses") for it in lines]
        open(file, "w").write(moved_paths("\n".join(lines)))
    for file in sorted(glob.glob("crates/*/src/**/*.rt", recursive=True)):
        lines = [turned_line(it, new, "//") for it in open(file).read().split("\n")]
        text = moved_paths("\n".join(lines))
        text = re.sub(r"\buse log::", "use answer_log::", text)
        open(file, "w").write(text)
    for file in sorted(glob.glob("crates/*/must-fail/*.edit") + glob.glob("mistakes/*.edit")):
        lines = open(file).read().split("\n")
        for k, it in enumerate(lines):
            is_text = re.match(r"(old|new): ", it)
            lines[k] = it if it.startswith("file: ") else turned_line(it, new, "\0" if is_text else it[:1] or "\0")
        text = moved_paths("\n".join(lines))
        open(file, "w").write(re.sub(r"\bcrates/log/", "crates/answer_log/", text))
    for crate in sorted(glob.glob("crates/*")):
        if os.path.exists(f"{crate}/specs/Contracts.antt"):
            subprocess.run(["git", "mv", f"{crate}/specs/Contracts.antt", f"{crate}/specs/Clauses.antt"], check=True)
            subprocess.run(["git", "mv", f"{crate}/specs/Contracts", f"{crate}/specs/Clauses"], check=True)
    subprocess.run(["git", "mv", "crates/log", "crates/answer_log"], check=True)
    text = open("crates.txt").read()
    open("crates.txt", "w").write(re.sub(r"\blog\b", "answer_log", text))


main()
