"""Holds the pages to the program and to the tree, so that none can go stale.

Everything that README.md and docs/script.md show of it is run by the program, and its answers are compared, byte by byte:
- a block `script ARGUMENTS..` is its input, and the block `answers` that follows is what it has to write;
- a block `sh` that is followed by `answers` is a command line, run by bash, where ./kvbucket stands for the program;
- `some-answers` is one of several outcomes (of a race): the run is repeated until it comes;
- in a table with the columns Example and Answer the code of the examples, row by row, is one script, and the code of the
  answers what it has to write; where the line before the table has such code, `./kvbucket ARGUMENTS..`, with these
  arguments. An example that begins with ./kvbucket is a command line of its own, whose answer holds what it writes to
  standard error too.
Each table of docs/script.md has these columns, and neither page has a block of any other kind, but for quoted Rattle and Python.

Of each page, what it names has to exist: the files and headings of its links, the files and folders, calls
(`Type::call`, `module::call`), edits (`crates/NAME/wrong-bodies`) and other names that stand in it as code."""
import glob, os, re, shlex, subprocess, tempfile, unittest
from typing import Any, Callable, Iterable, Iterator, Sequence

from scripts import kit
from tests import program, top

run_pages = ["README.md", "docs/script.md"]
TRIES = 500
# What was looked at, and what is wrong with it.
Found = tuple[str, str]
# Names that are no edits, nor of this tree.
OUTSIDE = {"im", "left-right", "delta", "lib/"}


def read(path: str) -> str:
    with open(path, encoding="utf-8") as file:
        return file.read()


def right(page: str, line: int) -> Found:
    """What was looked at, and what is wrong with it."""
    return "%s:%d" % (page, line), ""


def wrong(page: str, line: int, text: str) -> Found:
    return "%s:%d" % (page, line), text


# What a page consists of.


def parts_of(page: str) -> tuple[list[Any], list[Any], list[Any]]:
    """The blocks of a page, as (line, kind, lines), its tables, as (line, arguments, rows), and its other lines, numbered. A block
    with no end is of the kind "no end"."""
    blocks: list[Any] = []
    tables: list[Any] = []
    texts: list[Any] = []
    fence: Any = None
    table: Any = None
    for number, line in enumerate(read(os.path.join(top, page)).split("\n"), 1):
        if fence is not None:
            if line.strip() == "```":
                blocks.append(fence)
                fence = None
            else:
                fence[2].append(line)
            continue
        if line.startswith("```"):
            fence, table = (number, line[3:].strip(), []), None
            continue
        if line.startswith("    ") and table is None and line.strip():
            blocks.append((number, "indented", [line]))
        if line.startswith("|"):
            if table is None:
                above = next((it for _, it in reversed(texts) if it.strip()), "")
                table = (number, arguments_in(above), [])
                tables.append(table)
            cells = re.split(r"(?<!\\)\|", line.strip().strip("|"))
            if not re.fullmatch(r"[\s|:-]+", line):
                table[2].append((number, [cell.strip() for cell in cells]))
        else:
            table = None
        texts.append((number, line))
    if fence is not None:
        blocks.append((fence[0], "no end", fence[2]))
    return blocks, tables, texts


def codes(cell: str) -> list[str]:
    return [span.replace("\\|", "|") for span in re.findall(r"`([^`]+)`", cell)]


def arguments_in(line: str) -> list[str]:
    return next((code.split()[1:] for code in codes(line) if code.startswith("./kvbucket ")), [])


# What the program has to answer.


def run_program(arguments: Sequence[str], lines: Sequence[str]) -> list[str]:
    text = "".join(line + "\n" for line in lines)
    done = subprocess.run([program.path, *arguments], input=text.encode(), capture_output=True, timeout=300)
    return (done.stdout + done.stderr).decode().split("\n")[:-1]


def run_shell(lines: Sequence[str], folder: str) -> list[str]:
    text = "\n".join(lines).replace("./kvbucket", shlex.quote(program.path))
    done = subprocess.run(["bash", "-c", text], stdin=subprocess.DEVNULL, capture_output=True, timeout=300, cwd=folder)
    return (done.stdout + done.stderr).decode().split("\n")[:-1]


def compare(page: str, line: int, wanted: Sequence[str], found: Sequence[str]) -> Found:
    if wanted == found:
        return right(page, line)
    at = next((n for n, (a, b) in enumerate(zip(wanted, found)) if a != b), min(len(wanted), len(found)))
    shown = [lines[at] if at < len(lines) else "nothing" for lines in (wanted, found)]
    return wrong(page, line, "answer %d is %s, and the page says %s" % (at + 1, shown[1], shown[0]))


def run_blocks(page: str, blocks: list[Any], folder: str) -> Iterator[Found]:
    for (line, kind, lines), (_, after, answers) in zip(blocks, blocks[1:] + [(0, "", [])]):
        word, *arguments = kind.split() or [""]
        if word == "script" and after not in ("answers", "some-answers"):
            yield wrong(page, line, "no block of answers follows this script")
        if word not in ("script", "sh", "answers", "some-answers", "rust", "python"):
            yield wrong(page, line, "a block of a kind that nothing compares: %r" % kind)
        if word not in ("script", "sh") or after not in ("answers", "some-answers"):
            continue
        run: Callable[[], list[str]] = (lambda: run_program(arguments, lines)) if word == "script" else (lambda: run_shell(lines, folder))
        found = run()
        for _ in range(TRIES if after == "some-answers" else 0):
            if found == answers:
                break
            found = run()
        yield compare(page, line, answers, found)


def run_table(page: str, line: int, arguments: Sequence[str], rows: Sequence[Any], folder: str) -> Iterator[Found]:
    head = rows[0][1]
    if "Example" not in head or "Answer" not in head:
        if page == "docs/script.md":
            yield wrong(page, line, "this table has no columns Example and Answer, so nothing runs it")
        return
    example, answer = head.index("Example"), head.index("Answer")
    session = []
    for number, cells in rows[1:]:
        if len(cells) != len(head):
            yield wrong(page, number, "this row has another number of cells than the head of its table")
            continue
        lines, answers = codes(cells[example]), codes(cells[answer])
        if not lines:
            yield wrong(page, number, "this row has no example")
        elif lines[0].startswith("./kvbucket"):
            yield compare(page, number, answers, run_shell(lines, folder))
        else:
            session.append((number, lines, answers))
    found = run_program(arguments, [line for _, lines, _ in session for line in lines]) if session else []
    for at, (number, _, answers) in enumerate(session):
        is_last = at == len(session) - 1
        yield compare(page, number, answers, found if is_last else found[: len(answers)])
        found = found[len(answers):]


# What a page may name.


def tree() -> tuple[dict[str, str], set[str]]:
    """The texts of the crates, by path, and every word of the repository that a page may name."""
    texts = {}
    for folder, folders, names in os.walk(os.path.join(top, "crates")):
        folders[:] = sorted(it for it in folders if it != "out")
        for name in names:
            if name.endswith((".rt", ".antt")):
                path = os.path.join(folder, name)
                texts[os.path.relpath(path, top)] = read(path)
    words = set()
    for path, text in texts.items():
        words.update(re.findall(r"[\w-]+", text))
        words.update(re.findall(r"\w+", text))
        words.update(re.split(r"[/.]", path))
    for pattern in ("crates.txt", "bench", "kvbucket", "library", "test", "scripts/*", "tests/*", "tests/*/*", "tests/scripts/*/*", "include/*", "python/*", "python/*/*.py", "rust/*/*.rs",
                    "go/*.go", "tests/rust/*/*/*.rs", ".ci/*", "HANDLES"):
        for path in glob.glob(os.path.join(top, pattern)):
            if os.path.isfile(path):
                words.update(re.findall(r"[\w-]+", read(path)))
                words.update(re.findall(r"\w+", read(path)))
                words.update(os.path.relpath(path, top).split("/"))
    return texts, words


def defines(text: str, name: str) -> bool:
    return bool(re.search(r"\b(fn|struct|enum|trait|const|type|mod|static|macro)\s+%s\b|^\s+%s\s*[,({=]" % (name, name), text, re.M))


def is_call(first: str, last: str, texts: dict[str, str]) -> bool:
    if os.path.isdir(os.path.join(top, "crates", first)):
        own = "crates/%s/src/" % first
        return any(path.startswith(own) and (defines(text, last) or re.search(r"\buse\b[^;]*\b%s\b" % last, text))
                   for path, text in texts.items())
    if first[0].isupper():
        of_type = r"\b(impl|trait|struct|enum)\b[^;{]*\b%s\b" % first
        return any(path.endswith(".rt") and defines(text, last) and re.search(of_type, text) for path, text in texts.items())
    in_module: Callable[[str], bool] = lambda path: "/%s.rt" % first in path or "/%s/" % first in path
    return any(in_module(path) and defines(text, last) for path, text in texts.items())


def is_path(name: str) -> bool:
    name = re.sub(r"\b(NAME|CRATE|FOLDER)\b", "*", name.removeprefix("./").rstrip("/"))
    places = [top, os.path.join(top, "crates", "*")]
    return any(glob.glob(os.path.join(place, name + ending)) for place in places for ending in ("", ".rt", ".antt", ".md"))


def is_there(name: str, texts: dict[str, str], words: set[str]) -> bool:
    """Whether what stands as code exists, or is of a kind that names nothing of the tree."""
    if name in OUTSIDE:
        return True
    if re.fullmatch(r"(\./)?[\w.*-]+(/[\w.*-]+)*/?", name) and ("/" in name or re.search(r"\.(md|txt|rt|antt|py)$", name)):
        return is_path(name) or name in {os.path.basename(path) for path in texts}
    if re.fullmatch(r"\w+(::\w+)+", name):
        *_, first, last = name.split("::")
        return is_call(first, last, texts)
    if re.fullmatch(r"[a-z0-9]+(-[a-z0-9]+)+", name):
        return bool(glob.glob(os.path.join(top, "crates", "*", "wrong-bodies", name + ".edit"))) or name in words
    if re.fullmatch(r"[A-Za-z]\w*", name):
        return name in words or os.path.isdir(os.path.join(kit.libraries(), name))
    return True


def headings(page: str) -> set[str]:
    lines = [line.lstrip("#").strip() for line in read(page).split("\n") if line.startswith("#")]
    return {re.sub(r"[^\w -]", "", line.lower()).replace(" ", "-") for line in lines}


def check_links(page: str, texts_of_page: Sequence[Any]) -> Iterator[Found]:
    for number, line in texts_of_page:
        for target in re.findall(r"\]\(([^)]+)\)", line):
            if re.match(r"https?://", target):
                continue
            path, _, anchor = target.partition("#")
            file = os.path.normpath(os.path.join(top, os.path.dirname(page), path)) if path else os.path.join(top, page)
            if not os.path.exists(file):
                yield wrong(page, number, "there is no file %s" % path)
            elif anchor and anchor not in headings(file):
                yield wrong(page, number, "%s has no heading %s" % (path or page, anchor))
            else:
                yield right(page, number)


def check_names(page: str, texts_of_page: Sequence[Any], texts: dict[str, str], words: set[str]) -> Iterator[Found]:
    for number, line in texts_of_page:
        for name in codes(line):
            yield right(page, number) if is_there(name, texts, words) else wrong(page, number, "nothing here is named `%s`" % name)


def pages() -> list[str]:
    found = (path for pattern in ("*.md", "docs/*.md", "docs/*/*.md") for path in glob.glob(os.path.join(top, pattern)))
    return sorted(os.path.relpath(path, top) for path in found)


class Pages(unittest.TestCase):
    def hold(self, looked_at: Iterable[Found]) -> None:
        for place, fault in looked_at:
            with self.subTest(place):
                self.assertEqual(fault, "")

    def test_what_they_show_is_what_the_program_answers(self) -> None:
        with tempfile.TemporaryDirectory() as folder:
            for page in run_pages:
                blocks, tables, _ = parts_of(page)
                self.hold(run_blocks(page, blocks, folder))
                for line, arguments, rows in tables:
                    self.hold(run_table(page, line, arguments, rows, folder))

    def test_their_links_lead_somewhere(self) -> None:
        for page in pages():
            self.hold(check_links(page, parts_of(page)[2]))

    def test_their_blocks_have_ends(self) -> None:
        for page in pages():
            with self.subTest(page):
                self.assertEqual([line for line, kind, _ in parts_of(page)[0] if kind == "no end"], [])

    def test_what_they_name_is_there(self) -> None:
        texts, words = tree()
        for page in pages():
            self.hold(check_names(page, parts_of(page)[2], texts, words))


if __name__ == "__main__":
    unittest.main()
