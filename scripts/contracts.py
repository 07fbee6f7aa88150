#!/usr/bin/env python3
"""contracts.py [--check]: writes docs/contracts.md, an index of the public calls of each crate with the clauses that are proved
of them and the first sentence of what is said above them, all from the sources. With --check it compares the page with what
it would write, and ends with status 1 where they differ."""
import os, re, sys
from typing import Iterator, Optional, Sequence

if __name__ == "__main__":
    sys.dont_write_bytecode = True
    sys.path.insert(0, os.path.dirname(os.path.dirname(os.path.realpath(__file__))))
from scripts import top

PAGE = os.path.join(top, "docs", "contracts.md")
INTRO = """# The contracts

Each public call, with the clauses that are proved of it and the first sentence of its comment. `./scripts/contracts.py` writes this page from the sources, and `./test` compares the two.

How to read a clause: `self.now` is the value that a call borrows, `self.old` and `self.new` are a value before and after a call that changes it. `IfOk result (λ x. ..)` and `IfErr result (λ e. ..)` speak of a result's value where it is `Ok` or `Err`; `OnOk` and `OnErr` say what holds in that case. The capital words are definitions; [the model](verification.md#the-model-in-half-an-hour) says where each stands. A call with no clause is promised to be safe and to return, and no more.
"""


def read(path: str) -> str:
    with open(path, encoding="utf-8") as file:
        return file.read()


def crates() -> list[str]:
    """The names of the crates that a contract is written for, in the order of crates.txt: no tests, and not the bench."""
    names = [line.split(":")[0].split()[0] for line in read(os.path.join(top, "crates.txt")).splitlines() if line.strip()]
    return [name for name in names if not re.search(r"_tests?$|_tools$|bench|gauge|^kvbucket$", name)]


class Call:
    """A public function: where it stands, its signature, its clauses, and what is said of it."""

    def __init__(self, path: str, owner: Optional[str], signature: str, clauses: str, said: str) -> None:
        self.path, self.owner, self.signature, self.clauses, self.said = path, owner, signature, clauses, said

    def name(self) -> str:
        return str(re.findall(r"\bfn (\w+)", self.signature)[0])


def exported(root: str) -> tuple[set[str], set[str]]:
    """What a crate's root hands on: the names after `pub use`, and the modules that are public."""
    text = read(root)
    used = set()
    for names in re.findall(r"^pub use (?!kv_)[\w:]*?(?:::)?(\{[^}]*\}|\w+);", text, re.M | re.S):
        used.update(re.findall(r"\w+", names))
    return used, set(re.findall(r"^pub mod (\w+);", text, re.M))


def sources(crate: str) -> Iterator[tuple[str, str]]:
    """The source files of a crate, in the order in which its root names its modules, each with whether its module is public."""
    source = os.path.join(top, "crates", crate, "src")
    for folder, folders, files in os.walk(source):
        folders.sort()
        for file in sorted(files):
            if file.endswith(".rt"):
                path = os.path.join(folder, file)
                yield path, os.path.relpath(path, source).split(os.sep)[0].removesuffix(".rt")


def owner_of(line: str) -> Optional[str]:
    """The type whose calls an `impl` has, or None where it is of a trait."""
    head = re.sub(r"^(unsafe )?impl(<.*?>)?\s+(?=\w)", "", line.strip())
    if re.search(r"\bfor\b", head):
        return None
    return str(re.findall(r"\w+", head)[0])


def is_balanced(lines: Sequence[str]) -> bool:
    """Whether each brace that is opened in the lines is closed in them: a clause may have a record, whose lines end by semicolons."""
    text = "".join(lines)
    return text.count("{") == text.count("}")


def declaration(lines: Sequence[str], at: int) -> tuple[str, str, int]:
    """The signature and the clauses of the function that begins at a line, and its last line."""
    indent = lines[at][: len(lines[at]) - len(lines[at].lstrip())]
    head: list[str] = []
    clauses: list[str] = []
    while lines[at] not in (indent + "{", indent + "{}"):
        line = lines[at]
        part = clauses if clauses or re.match(r"\s*(ensures|requires)\b", line) else head
        if not line.strip().startswith("//"):
            part.append(line.removeprefix(indent))
        if (line.endswith(";") and is_balanced(head + clauses)) or (line.endswith(" {") and not clauses):
            part[-1] = part[-1].removesuffix(" {").removesuffix(";")
            break
        at += 1
    return "\n".join(head), "\n".join(it.removeprefix("    ") for it in clauses), at


def calls_of(path: str) -> Iterator[Call]:
    """The functions of a file that are declared `pub` or in a trait that is, with the type or trait that they belong to."""
    lines = read(path).splitlines()
    owner, kind, said, at = None, None, [], 0
    while at < len(lines):
        line = lines[at]
        if re.match(r"(unsafe )?impl\b", line):
            owner = owner_of(line)
            kind = "type" if owner else "impl of a trait"
        elif line.startswith("pub trait "):
            owner, kind = re.findall(r"\w+", line.removeprefix("pub trait "))[0], "trait"
        elif line == "}":
            owner, kind = None, None
        stripped = line.strip()
        if stripped.startswith("///"):
            said.append(stripped[3:].strip())
        elif re.match(r"fn " if kind == "trait" else r"pub (extern \"C\" )?fn ", stripped) and kind != "impl of a trait":
            head, clauses, at = declaration(lines, at)
            yield Call(path, owner, head, clauses, " ".join(said))
            said = []
        elif not stripped.startswith("#[") and not stripped.startswith("//"):
            said = []
        at += 1


def public_calls(crate: str) -> Iterator[Call]:
    """The calls that whoever uses a crate can name."""
    used, modules = exported(os.path.join(top, "crates", crate, "src", "lib.rt"))
    for path, module in sources(crate):
        for call in calls_of(path):
            is_for_c = 'extern "C"' in call.signature
            if is_for_c or (call.owner or call.name()) in used or module in modules:
                yield call


def first_sentence(said: str) -> str:
    return str(re.findall(r".*?[.:](?=\s|$)|.*", said)[0]).rstrip(":")


def signature(call: Call) -> str:
    """A signature on one line, without `pub`."""
    text = re.sub(r"\s+", " ", call.signature).replace("( ", "(").replace(", )", ")")
    return re.sub(r"^\s*pub ", "", text)


def section(crate: str) -> str:
    """What the page has of a crate."""
    calls = list(public_calls(crate))
    if not calls:
        return ""
    out = ["## %s\n" % crate]
    owners = list(dict.fromkeys(call.owner for call in calls))
    for owner in sorted(owners, key=lambda it: (it is None, it)):
        if len(owners) > 1 or owner:
            out.append("### %s\n" % (("%s of %s" % (owner, crate)) if owner else "Functions of %s" % crate))
        for call in (it for it in calls if it.owner == owner):
            where = os.path.relpath(call.path, os.path.join(top, "docs"))
            out.append("**[`%s`](%s)** %s\n" % (call.name(), where, first_sentence(call.said)))
            out.append("```rust\n%s\n```\n" % "\n".join(filter(None, [signature(call), call.clauses])))
    return "\n".join(out)


def page() -> str:
    """The whole page."""
    return INTRO + "\n" + "\n".join(filter(None, map(section, crates())))


def main() -> None:
    if sys.argv[1:] == ["--check"]:
        if not os.path.exists(PAGE) or read(PAGE) != page():
            print("docs/contracts.md is not what the sources say: run ./scripts/contracts.py", file=sys.stderr)
            sys.exit(1)
        return
    with open(PAGE, "w", encoding="utf-8") as file:
        file.write(page())


if __name__ == "__main__":
    main()
