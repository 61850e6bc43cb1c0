#!/usr/bin/env python3
"""Brings the repository's own names in antt to the spelling that Rattle has now; run once, at the top, after the kit's port.py.

Words are in snake case: camelCase and dashes become underscores. It respells definitions, fields, constructors and lemmas of specs/*.antt and proofs/*.antt
wherever they stand: in specs, proofs, contracts, must-fail edits, and in backquotes in the documents. A lemma that would have another
name's spelling gets `_lem`. Functions of src/, exported names, strings, inputs and outputs keep their names; so do names in proofs/F/, which the check gives.
Names that the kit's script respelled in the sources are respelled in edits and documents in the same way. It prints each name that it changed.
"""
import glob
import os
import re
import subprocess
import sys

os.chdir(subprocess.check_output(["git", "rev-parse", "--show-toplevel"], text=True).strip())
WORD = r"[A-Za-z_][\w'′-]*"
TOKEN = re.compile(r"(?<![\w'′·-])" + WORD)
HEAD = re.compile(r"^[ ]*(?:(?:unfoldable|abbrev|pub)[ ]+)*(?:(record|data)[ ]+)?(?:pub[ ]+)?(" + WORD + r")[ ]*(?:\{[^}]*\}[ ]*|\([^)]*\)[ ]*)*:[ ]", re.M)
# what the old spelling of the library is in the new one, where a name of ours has a word of it
LIBRARY = {"getD": "get_or"}
# names that the check gives
MADE = re.compile(r"^(?:c|w|l|g)$|^(?:loop|invariant|decreases|returns|slice|array|cast|call|mul|add|sub|if|then|else|branch|in)-")
# lemmas and local names that already have the spelling that a definition gets
GIVE_WAY = ("not_yet", "same_bytes", "too_short")


def lemma_files():
    return sorted(glob.glob("crates/*/specs/*.antt") + glob.glob("crates/*/proofs/*.antt"))


def snake(name):
    for old, new in LIBRARY.items():
        name = re.sub(rf"(?:^|(?<=-)){old}(?=$|-)", new, name)
    name = name.replace("′", "'").replace("-", "_")
    name = re.sub(r"(?<=[a-z0-9])(?=[A-Z])", "_", name)
    name = re.sub(r"(?<=_With)(?=\d)", "_", name)
    return name.lower()


def code(text):
    """The text without its comments, in lines."""
    return "\n".join(line for line in text.split("\n") if not line.lstrip().startswith("--"))


def defined():
    names = set()
    for f in lemma_files():
        for kind, name in HEAD.findall(code(open(f, encoding="utf-8").read())):
            names.add(name)
    return names


def mapping(names):
    wanted = {}
    plain = {n for n in names if re.fullmatch(r"[a-z][a-z0-9_']*|[A-Z]\w*", n)} - set(GIVE_WAY)
    for name in sorted(names - plain - set(GIVE_WAY)):
        if name[0].isupper() and not re.search(r"-", name):
            continue
        new = snake(name)
        if new != name:
            wanted[name] = new
    # a name that is there, or a definition in camel case, keeps the plain spelling; a lemma with a dash gives way
    taken = set(plain)
    result = {}
    for name, new in sorted(wanted.items(), key=lambda p: ("-" in p[0], p[0])):
        if new in taken:
            if "-" not in name:
                sys.exit(f"respell: {name} and another name fall together in {new}")
            new += "_lem"
        if new in taken:
            sys.exit(f"respell: {name} falls together with another name in {new}")
        taken.add(new)
        result[name] = new
    for name in GIVE_WAY:
        result[name] = name + "_lem"
    return result


def outside_strings(line, change):
    parts = re.split(r'("(?:[^"\\]|\\.)*")', line)
    return "".join(p if p.startswith('"') else change(p) for p in parts)


def respell(text, names):
    return TOKEN.sub(lambda m: names.get(m.group(0), m.group(0)), text)


def in_comment(text, names):
    return re.sub(r"`[^`\n]+`", lambda m: respell(m.group(0), names), text)


def antt(text, names):
    lines = []
    for line in text.split("\n"):
        head, dashes, comment = line.partition("--") if re.match(r"[ ]*--", line) else (line, "", "")
        lines.append(outside_strings(head, lambda p: respell(p, names)) + dashes + in_comment(comment, names))
    return "\n".join(lines)


def rt(text, names):
    """Of a source file: its ghost lines, its clauses, and what stands in backquotes in comments. A name with a dash is ours in code only in these."""
    lines, inside = [], False
    for line in text.split("\n"):
        word = line.lstrip()
        if word.startswith("//"):
            lines.append(in_comment(line, names))
            continue
        if re.match(r"(ghost|requires|ensures)\b", word):
            inside = True
        lines.append(outside_strings(line, lambda p: respell(p, names)) if inside else line)
        if inside and line.rstrip().endswith(("}", ";", "},")) and line.count("{") <= line.count("}") or line == "{":
            inside = False
    return "\n".join(lines)


def tight(text):
    """A projection stands tight at its value, and takes no parentheses then."""
    text = re.sub(r"\bsettled C n vs b \.buffers", "(settled C n vs b).buffers", text)
    text = re.sub(r"\(at vs (\w+) \.(\w+)\)", r"(at vs \1).\2", text)
    text = re.sub(r"\bat vs (\w+) \.(\w+)", r"(at vs \1).\2", text)
    text = re.sub(r"\((\w+) ((?:\.\w+ ?)+)\)", lambda m: m.group(1) + m.group(2).replace(" ", ""), text)
    text = re.sub(r"(?<![\w.])([A-Za-z]) \.(?=[a-z])", r"\1.", text)
    return re.sub(r"(\.\w+) \.(?=[a-z])", r"\1.", text)


def edit(text, names):
    names = {**names, "getD": "get_or"}
    lines = []
    for line in text.split("\n"):
        key, colon, rest = line.partition(":")
        lines.append(key + colon + outside_strings(rest, lambda p: tight(respell(p, names))) if key in ("old", "new") else line)
    return "\n".join(lines)


def document(text, names):
    return in_comment(text, names)


def rewrite(paths, change, names):
    for path in sorted(paths):
        with open(path, encoding="utf-8") as f:
            old = f.read()
        new = change(old, names)
        if new != old:
            with open(path, "w", encoding="utf-8") as f:
                f.write(new)


def at_commit(commit):
    """The names that the files defined before the kit's script ran."""
    names = set()
    listed = subprocess.check_output(["git", "ls-tree", "-r", "--name-only", commit, "crates"], text=True).split("\n")
    for path in listed:
        if re.fullmatch(r"crates/\w+/(specs|proofs)/\w+\.antt", path):
            for kind, name in HEAD.findall(code(subprocess.check_output(["git", "show", f"{commit}:{path}"], text=True))):
                names.add(name)
    return names


def main():
    before = at_commit(sys.argv[1] if len(sys.argv) > 1 else "HEAD")
    names = mapping(defined())
    now = defined()
    # what the kit's script respelled: gone from the sources, and its snake spelling is there
    gone = {}
    for name in sorted(before - now):
        for new in (snake(name), name.replace("-", "_")):
            if new != name and new in now:
                gone[name] = new
                break
    everywhere = {**gone, **names}
    rewrite(glob.glob("crates/*/specs/**/*.antt", recursive=True) + glob.glob("crates/*/proofs/**/*.antt", recursive=True), antt, names)
    # in sources, edits and documents a name that gives way stands for nothing but code, or for what the kit's script respelled
    for name in GIVE_WAY:
        del everywhere[name]
    without = {old: new for old, new in names.items() if old not in GIVE_WAY}
    rewrite(glob.glob("crates/*/src/*.rt"), rt, without)
    rewrite(glob.glob("crates/*/must-fail/*.edit"), edit, everywhere)
    rewrite(["README.md", *glob.glob("docs/*.md")], document, everywhere)
    for name, new in sorted(everywhere.items()):
        print(f"{name} {new}")


main()
