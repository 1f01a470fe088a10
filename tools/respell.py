#!/usr/bin/env python3
"""respell [FOLDER]: brings the repository's own definitions and lemmas to the spelling of the library that it stands on.

A word is in snake case, a dash joins two names of functions, a prime is an apostrophe: `planOk` becomes `plan_ok`, `seven-less` becomes `seven_less`,
and `length-drop` stays. Names of the code, of the library and what the prover makes are left as they are. Run it once, behind the library's own script; it
goes over the definitions, the proofs, the clauses of the code, and what cites them in tests/ends and the documents. Prints what it renamed, and
stops before it writes anything where two names would fall together.
"""
import collections
import difflib
import pathlib
import re
import subprocess
import sys

ROOT = pathlib.Path(sys.argv[1] if len(sys.argv) > 1 else ".").resolve()
TOKEN = re.compile(r"[^\s(){}\[\],;.\"⌜⌝`|]+")
DECLARED = re.compile(r"(?m)^ *(abbrev |unfoldable )?(?:pub )?(?:record |data )?([^\s(){}:;,.]+)(?: +[({][^\n]*?[)}])* +:(?=\s)")
IMPORTED = re.compile(r"(?m)^(?:ghost )?use (\S+?)\.\{(.*?)\};?$")
# Functions that a lemma's name may join by a dash.
FUNCTIONS = {"length", "take", "drop", "append", "set", "sets", "get_or", "map", "sum", "replicate", "reverse", "coded", "count"}


def walk(path):
    """Whether a file is the proof of one function, with names that the prover made."""
    return path.name == "Proof.antt"


def files(pattern):
    return sorted(p for p in ROOT.glob(pattern) if "out" not in p.relative_to(ROOT).parts)


def snake(name):
    if name[0].islower() and re.search(r"[a-z0-9][A-Z]", name):
        name = re.sub(r"([a-z0-9])([A-Z])", lambda m: m.group(1) + "_" + m.group(2).lower(), name)
    if "-" in name.strip("-"):
        parts = name.split("-")
        text = parts[0]
        for left, right in zip(parts, parts[1:]):
            text += ("-" if left in FUNCTIONS and right in FUNCTIONS else "_") + right
        name = text
    return name.replace("′", "'")


def declared():
    """The names that the specs and the lemma files declare, the fields and constructors among them."""
    found = set()
    for path in files("crates/*/specs/**/*.antt") + files("crates/*/proofs/**/*.antt"):
        if not walk(path):
            found |= {m.group(2) for m in DECLARED.finditer(path.read_text())}
    return found


def foreign():
    """The names that come from elsewhere: the library's."""
    found = set()
    own = {path.name for path in (ROOT / "crates").iterdir()}
    for path in files("crates/*/**/*.antt") + files("crates/*/**/*.rt"):
        for module, members in IMPORTED.findall(path.read_text()):
            words = module.split(".")
            if words[0] == "Rattle" and words[1] in own:
                continue
            found |= {name.strip().partition(" as ")[0] for name in members.split(",")}
    return found


def renamed(text, names):
    return TOKEN.sub(lambda m: names.get(m.group(0), m.group(0)), text)


def clauses(text, names):
    """The code with its clauses, ghost items and imports respelled; a word of the code itself is in snake case already, and strings stay."""
    lines = []
    for line in text.split("\n"):
        code, quote, rest = line.partition('"')
        if line.lstrip().startswith("//") or "-" not in line and not re.search(r"[a-z][A-Z]", line):
            lines.append(line)
        else:
            lines.append(renamed(code, names) + quote + rest)
    return "\n".join(lines)


def before(path):
    """The text of a file as it stood before the library's own script ran."""
    run = subprocess.run(["git", "show", f"HEAD:{path.relative_to(ROOT)}"], cwd=ROOT, capture_output=True, text=True)
    return run.stdout if run.returncode == 0 else None


def tight(text):
    """A projection written tight, and without brackets where it is an argument."""
    text = re.sub(r"(?<=[\w)'\u2080-\u2089]) \.(?=[a-z0-9])", ".", text)
    return re.sub(r"(?<![\w:])\(([^\s()]+\.[^\s()]+)\)", r"\1", text)


def learnt(pairs):
    """Which word the library's script wrote for which: told by the lines that have as many words as before."""
    seen = collections.defaultdict(collections.Counter)
    for old, new in pairs:
        lines = tight(old).split("\n"), new.split("\n")
        match = difflib.SequenceMatcher(None, *lines, autojunk=False)
        for tag, a, b, c, d in match.get_opcodes():
            if tag != "insert" and b - a == d - c:
                for one, two in zip(lines[0][a:b], lines[1][c:d]):
                    words = TOKEN.findall(one), TOKEN.findall(two)
                    if len(words[0]) == len(words[1]):
                        for x, y in zip(*words):
                            seen[x][y] += 1
    return {x: ys.most_common(1)[0][0] for x, ys in seen.items() if ys.most_common(1)[0][0] != x}


def turned(text, words):
    return renamed(tight(text), words)


def edits(words):
    """The edits' texts, word by word; what then does not stand once in its file is printed, for a hand to mend."""
    for path in files("crates/*/must-fail/*.edit") + files("tests/ends/*.end"):
        lines, target = path.read_text().split("\n"), None
        proof = False
        for k, line in enumerate(lines):
            word, colon, rest = line.partition(":")
            if proof or word in ("old", "new", "against"):
                lines[k] = turned(line, words)
            elif word == "file":
                target = (ROOT if path.suffix == ".end" else path.parent.parent) / rest.strip()
            proof = proof or line == "proof:"
            if word == "old" and not proof:
                count = target.read_text().count(lines[k][5:])
                if count != 1:
                    print(f"by hand: {path.relative_to(ROOT)}: its text stands {count} times in {target.relative_to(ROOT)}: {lines[k][5:]}")
        path.write_text("\n".join(lines))


def documents(names):
    for path in [*files("*.md"), *files("docs/**/*.md"), *files("examples/*.md"), *files("compare/*.md")]:
        if path.name != "PORT.md":
            path.write_text(re.sub(r"`[^`\n]+`", lambda m: renamed(m.group(0), names), path.read_text()))


def main():
    own = declared()
    names = {name: snake(name) for name in own - foreign()}
    names = {old: new for old, new in names.items() if old != new}
    paths = files("crates/*/**/*.antt") + files("crates/*/**/*.rt")
    texts = {path: path.read_text() for path in paths}
    # A lemma that would have its function's name gets `_lem`: one whose name another takes too, or that a file has already.
    taken = {new for old, new in names.items() if "-" not in old}
    for old, new in names.items():
        if "-" in old and new in taken:
            names[old] = new + "_lem"
    for path, text in texts.items():
        if walk(path) or path.suffix == ".rt" or path.name == "Determined.antt":
            continue
        tokens = set(TOKEN.findall(re.sub(r"(?m)--.*$", "", text)))
        for old in tokens & names.keys():
            new = names[old]
            if new in tokens and new not in names and "-" in old:
                names[old] = new + "_lem"
            elif new in tokens and new not in names:
                names[new] = new + "_lem"
    back = collections.defaultdict(list)
    for old, new in names.items():
        back[new].append(old)
    together = [f"together: {' '.join(olds)} -> {new}" for new, olds in back.items() if len(olds) > 1 or new in own and new not in names and not any(old in olds for old in own)]
    if together:
        sys.exit("\n".join(together))
    for path, text in texts.items():
        new = clauses(text, names) if path.suffix == ".rt" else renamed(text, names)
        if new != text:
            path.write_text(new)
    pairs = [(old, path.read_text()) for path in paths if path.suffix == ".antt" and (old := before(path))]
    words = learnt(pairs) | names
    edits(words)
    documents(names)
    for old, new in sorted(names.items()):
        print(f"{old} -> {new}")


main()
