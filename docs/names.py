"""The names that the crates declare: definitions, fields, constructors, theorems, functions and structs, each with its place. Used by
`docs/rests-on` and `docs/check`. It reads what the formatter leaves: a declaration starts a line, and a blank line ends it."""
import pathlib
import re

ROOT = pathlib.Path(__file__).resolve().parent.parent
CRATES = ROOT / "crates"

WORD = r"[^\s(){}\[\],;.λ⌜⌝]+"
HEAD = re.compile(rf"^(\s*)(?:abbrev |unfoldable )?(?:pub )?(?:(data|record) )?({WORD})(?: \(.*?\))* :(?:\s|$)")
RUST = re.compile(r"^\s*(?:pub )?(?:\(crate\) )?(?:pub\(crate\) )?(?:extern \"C\" )?(?:fn|struct|enum|const) (\w+)")


class Block:
    """One declaration: its name, its file, the line it starts at, its text without comments, and how many lines it has."""

    def __init__(self, name, path, start, lines):
        self.name, self.path, self.start = name, path, start
        self.count = len(lines)
        self.text = "\n".join(re.sub(r"--.*$|//.*$", "", line) for line in lines)

    def place(self):
        return str(self.path.relative_to(ROOT))


def blocks(path):
    """The declarations of a file, and for each name in it the block that declares it."""
    found, names, lines = [], {}, path.read_text().split("\n")
    pattern = HEAD if path.suffix == ".antt" else RUST
    at = 0
    while at < len(lines):
        end = at
        while end < len(lines) and lines[end].strip():
            end += 1
        part = lines[at:end]
        heads = [(k, pattern.match(line)) for k, line in enumerate(part) if not line.lstrip().startswith(("--", "//"))]
        heads = [(k, m) for k, m in heads if m]
        if heads:
            group = 3 if path.suffix == ".antt" else 1
            first = heads[0][1]
            block = Block(first.group(group), path, at + 1, part)
            found.append(block)
            for k, m in heads:
                names.setdefault(m.group(group), block)
            if path.suffix == ".rt":
                for name in re.findall(r"^    (?:pub )?(\w+)[:(,]", block.text, re.M):
                    names.setdefault(name, block)
        at = end + 1
    return found, names


def uses(path):
    """What a file brings in: for each name its module and its name there, and for each alias of a module the module."""
    named, aliased = {}, {}
    for m in re.finditer(r"^(?:ghost )?use (\S+?)(?:\.\{(.*?)\}| as (\S+?))?;?$", path.read_text(), re.M):
        module, members, alias = m.groups()
        if alias:
            aliased[alias] = module
        for name in filter(None, (name.strip() for name in (members or "").split(","))):
            there, _, here = name.partition(" as ")
            named[here or there] = (module, there)
    return named, aliased


def module_path(module):
    """The file of one of the project's own modules; None for a module of the toolchain's library."""
    m = re.match(r"Rattle\.(\w+)\.(specs|proofs)\.(.*)$", module)
    if not m or not (CRATES / m.group(1)).is_dir():
        return None
    crate, kind, rest = m.groups()
    if rest.startswith("declared"):
        return CRATES / crate / "src" / "lib.rt"
    return CRATES / crate / kind / (rest.replace(".", "/") + ".antt")
