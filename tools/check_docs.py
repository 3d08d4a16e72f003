#!/usr/bin/env python3
"""Checks the documents, and names each fault: README.md, docs/*.md and the READMEs of the crates.

- A relative link leads to a file, and its anchor to a heading of it.
- A link whose text is a name in backticks and that leads to a source leads to where that name is defined: a function,
  a type or a lemma. In docs/PROMISES.md the names in backticks after a link to a function are clauses of it.
- A block after a comment <!-- file: PATH --> is that file, and one after <!-- part: PATH --> lines of it in a row.
- A block after a comment <!-- output: COMMAND --> is what the program writes. It is run once for all of them, by `rt
  try`, which proves nothing. A path is one of crates/cdrc_words or of the top folder.
- A block after a comment <!-- taken: CRATE --> is what that program writes in a repository of its own, which has only
  what tools/take.py copies.
- docs/late_finish.svg is what tools/picture.py draws, and the block after <!-- layers --> what tools/layers.py draws.
- Each crate of crates.txt has a README, to which docs/CRATES.md links.
- No mark of a merge is left.
"""
import re
import shutil
import subprocess
import sys
import tempfile
from concurrent.futures import ThreadPoolExecutor
from pathlib import Path

sys.dont_write_bytecode = True
import layers  # noqa: E402
import picture  # noqa: E402
import take  # noqa: E402

TOP = Path(__file__).resolve().parent.parent
LINK = re.compile(r"!?\[((?:`[^`]*`|[^\]`])*)\]\(([^)\s]+)\)")
MARK = re.compile(r"^<!-- (file|part|output|taken|layers)(?:: (.+))? -->$")


class Document:
    def __init__(self, path):
        self.path, self.faults = path, []
        self.lines = path.read_text().splitlines()
        # the lines outside of blocks of code, by their numbers, and the headings' anchors
        self.prose, self.anchors, fenced = [], set(), False
        for number, line in enumerate(self.lines, 1):
            if line.startswith("```"):
                fenced = not fenced
            elif not fenced and not line.startswith("    "):
                self.prose.append((number, line))
                if line.startswith("#"):
                    words = re.sub(r"[^\w\- ]", "", line.lstrip("#").strip().lower())
                    self.anchors.add(words.replace(" ", "-"))

    def fault(self, number, words):
        self.faults.append(f"{self.path.relative_to(TOP)}:{number}: {words}")

    def marked(self):
        """Each marked block: its line, the mark's two words, and the text, fenced or indented by four spaces."""
        for at, line in enumerate(self.lines):
            mark = MARK.match(line)
            if mark:
                rest = self.lines[at + 1:]
                while rest and not rest[0].strip():
                    rest.pop(0)
                if rest and rest[0].startswith("```"):
                    block = rest[1:rest.index("```", 1)]
                else:
                    block = []
                    for word in rest:
                        if word.strip() and not word.startswith("    "):
                            break
                        block.append(word[4:])
                    while block and not block[-1]:
                        block.pop()
                yield at + 1, mark[1], mark[2], "".join(word + "\n" for word in block)


def check_merged(document):
    for number, line in enumerate(document.lines, 1):
        if re.match(r"(<{7}|={7}|>{7})( |$)", line):
            document.fault(number, "a mark that a merge left")


def check_links(document, documents):
    for number, line in document.prose:
        for text, target in LINK.findall(line):
            if re.match(r"[a-z]+:", target):
                continue
            name, _, anchor = target.partition("#")
            path = (document.path.parent / name).resolve() if name else document.path
            if not path.exists():
                document.fault(number, f"no file {target}")
            elif anchor and path in documents and anchor not in documents[path].anchors:
                document.fault(number, f"no heading {target}")
            elif path.suffix in (".rt", ".antt") and re.fullmatch(r"`[^`]+`", text):
                if not defines(path, text.strip("`")):
                    document.fault(number, f"{text} isn't defined in {name}")
        if document.path.name == "PROMISES.md" and line.startswith("|"):
            check_clauses(document, number, line)


def defines(path, name):
    """Whether the source defines the function, type or lemma."""
    source, word = path.read_text(), re.escape(name)
    if path.suffix == ".rt":
        return re.search(rf"^\s*(pub(\(crate\))? )?(fn|struct|enum|trait) {word}\b", source, re.M)
    return re.search(rf"^\s*(abbrev )?pub (record |data )?{word} ", source, re.M)


def check_clauses(document, number, line):
    """After a link to a function stand the names of its clauses, up to the next link."""
    links = list(LINK.finditer(line))
    for link, following in zip(links, links[1:] + [None]):
        path, name = document.path.parent / link[2], link[1].strip("`")
        if path.suffix == ".rt" and path.exists():
            contract = re.search(rf"fn {name}\b.*?(?=\bfn |\Z)", path.read_text(), re.S)
            clauses = line[link.end():following.start() if following else None].split("|")[0]
            for clause in re.findall(r"`([a-z_]+)`", clauses):
                if not contract or not re.search(rf"ensures {clause} ", contract[0]):
                    document.fault(number, f"{name} has no clause {clause} in {link[2]}")


def outputs_of(commands):
    """What the program writes for each command line, by one `rt try` with a case for each."""
    with tempfile.TemporaryDirectory() as folder:
        for n, command in enumerate(commands):
            case, words = Path(folder) / f"case{n}", command.split()
            case.write_text("")
            for i, word in enumerate(words):
                places = [top / word for top in (TOP / "crates/cdrc_words", TOP) if "/" in word]
                words[i] = next((str(place) for place in places if place.is_file()), word)
            case.with_name(f"case{n}.args").write_text("".join(word + "\n" for word in words))
        done = subprocess.run(["rt", "try", "--cases", folder], cwd=TOP / "crates/cdrc_words", capture_output=True,
                              text=True)
    parts = re.split(r"^== case(\d+)\n", done.stdout, flags=re.M)[1:]
    told = {commands[int(n)]: text for n, text in zip(parts[::2], parts[1::2])}
    if set(told) != set(commands):
        sys.exit(f"check_docs: the program didn't run\n{done.stdout}{done.stderr}")
    return told


def output_elsewhere(name):
    """What a program of ours writes in a repository of its own."""
    with tempfile.TemporaryDirectory() as folder:
        top = Path(folder)
        take.take([name], top)
        shutil.copy(TOP / "HANDLES", top)
        done = subprocess.run(["rt", "try"], cwd=top / "crates" / name, capture_output=True, text=True)
    return done.stdout if done.returncode == 0 else f"status {done.returncode}\n{done.stdout}{done.stderr}"


def main():
    paths = [TOP / "README.md", *sorted((TOP / "docs").glob("*.md")), *sorted(TOP.glob("crates/*/README.md"))]
    documents = {path: Document(path) for path in paths}
    list_of_steps = "steps docs/late_finish.steps"
    shown, elsewhere = [(None, 0, list_of_steps, None)], []
    for document in documents.values():
        check_merged(document)
        check_links(document, documents)
        for number, kind, name, text in document.marked():
            if kind == "output":
                shown.append((document, number, name, text))
            elif kind == "taken":
                elsewhere.append((document, number, name, text))
            elif kind == "layers":
                if text != layers.draw((TOP / "crates.txt").read_text()):
                    document.fault(number, "tools/layers.py draws other layers")
            elif kind == "part":
                if not (TOP / name).is_file() or "\n" + text not in "\n" + (TOP / name).read_text():
                    document.fault(number, f"the block isn't a part of the file {name}")
            elif not (TOP / name).is_file() or (TOP / name).read_text().rstrip("\n") != text.rstrip("\n"):
                document.fault(number, f"the block isn't the file {name}")

    with ThreadPoolExecutor() as pool:
        told = pool.submit(outputs_of, sorted({command for _, _, command, _ in shown}))
        for document, number, name, text in elsewhere:
            written = output_elsewhere(name)
            if written != text:
                document.fault(number, f"{name} writes\n{written}")
        told = told.result()
    for document, number, command, text in shown[1:]:
        if told[command] != text:
            document.fault(number, f"{command} writes\n{told[command]}")

    faults = [fault for document in documents.values() for fault in document.faults]
    steps = (TOP / "docs/late_finish.steps").read_text()
    drawn = picture.draw(picture.rows_of(steps, told[list_of_steps].splitlines()))
    if drawn != (TOP / "docs/late_finish.svg").read_text():
        faults.append("docs/late_finish.svg: make picture draws another one")
    linked = (TOP / "docs/CRATES.md").read_text()
    for name in take.lines_of((TOP / "crates.txt").read_text()):
        if not (TOP / "crates" / name / "README.md").exists() or f"(../crates/{name}/README.md)" not in linked:
            faults.append(f"docs/CRATES.md: no link to a README of {name}")
    print(*faults, f"{len(documents)} documents, {len(shown)} outputs, {len(faults)} faults", sep="\n")
    return 1 if faults else 0


if __name__ == "__main__":
    sys.exit(main())
