"""The pages: what they print below a command, the files that they name, and the clauses."""
import os
import re
import shutil
import subprocess

TOP = os.path.dirname(os.path.dirname(os.path.dirname(os.path.realpath(__file__))))
PAGES = ["README.md", "docs/GUIDE.md", "docs/ARCHITECTURE.md", "docs/DEFINITIONS.md", "docs/PROOFS.md", "docs/DECISIONS.md",
         "docs/EMBEDDING.md"]
FENCE = "```"


def text_of(path):
    with open(f"{TOP}/{path}", encoding="utf-8") as file:
        return file.read()


def files_in(folder, ending):
    """The paths below the folder of each crate, but for what a check leaves."""
    for crate in sorted(os.listdir(f"{TOP}/crates")):
        for path, _, names in os.walk(f"{TOP}/crates/{crate}/{folder}"):
            yield from (os.path.relpath(f"{path}/{name}", TOP) for name in sorted(names) if name.endswith(ending))


def printed(path):
    """Of each block of output in a page: the command above it, whether only its last lines stand there, and the block."""
    command, told, block = None, "", None
    for line in text_of(path).splitlines():
        if line.startswith(FENCE):
            if block is None and line == FENCE and command:
                block = []
            elif block is not None:
                yield command, "last lines" in told, "".join(f"{it}\n" for it in block)
                command, told, block = None, "", None
        elif block is not None:
            block.append(line)
        elif line.startswith("    "):
            command, told = line.strip(), ""
        else:
            told += f"{line} "


def commands(program):
    """Each command that has its output printed below it, but those that need tcpdump where it isn't there."""
    for path in ("README.md", "docs/GUIDE.md"):
        for command, is_end, wanted in printed(path):
            if re.search(r"examples/(?:who|tally) ", command) and not shutil.which("tcpdump"):
                continue
            done = subprocess.run(["sh", "-c", command.replace("./scr ", f"{program} ")], cwd=TOP, stdin=subprocess.DEVNULL,
                                  env={**os.environ, "SCR": program}, stdout=subprocess.PIPE, text=True)
            right = done.stdout.endswith(wanted) if is_end else done.stdout == wanted
            yield f"{path}: {command}", None if right else f"wanted: {wanted!r}\ncame:   {done.stdout[-1000:]!r}"


def named_files(_program):
    """Each file of definitions, and each of lemmas, is named by some page."""
    pages = "\n".join(map(text_of, PAGES))
    words = set(re.findall(r"[\w/]+\.antt|`\w+`", pages))
    named = {word.strip("`").removesuffix(".antt").rpartition("/")[2] for word in words}
    for folder in ("specs", "proofs"):
        # Proofs of one function stand in a folder of their own, which has the function's name.
        for path in (it for it in files_in(folder, ".antt") if it.count("/") == 3):
            name = os.path.basename(path).removesuffix(".antt")
            if name != "Lib":
                yield f"a page names {path}", None if name in named else "no page does"


def clauses(_program):
    """Each name in parentheses behind a function's is a clause, a condition or a ghost member."""
    names = set()
    for path in files_in("src", ".rt"):
        names |= set(re.findall(r"\b(?:ensures|requires|ghost) (\w+)", text_of(path)))
    for path in ("README.md", "docs/PROOFS.md", "docs/EMBEDDING.md"):
        for line, text in enumerate(text_of(path).splitlines(), 1):
            for inside in re.findall(r"`[\w:]+`(?:'s `\w+`)? \(((?:`\w+`(?:, | and )?)+)\)", text):
                wrong = [it for it in re.findall(r"`(\w+)`", inside) if it not in names]
                yield f"{path}:{line}: ({inside})", f"no clause: {' '.join(wrong)}" if wrong else None


def excerpts(_program):
    """Each block of the page on embedding stands in the file that is named last before it, but for the space between words."""
    pieces = re.split(r"^```\w*\n(.*?)^```$", text_of("docs/EMBEDDING.md"), flags=re.DOTALL | re.MULTILINE)
    path, code = None, ""
    for told, block in zip(pieces[::2], pieces[1::2]):
        for path in re.findall(r"`([\w/]+\.\w+)`", told)[-1:]:
            code = "".join(text_of(path).split()) if os.path.exists(f"{TOP}/{path}") else ""
        yield f"docs/EMBEDDING.md: {block.partition(chr(10))[0]}", None if "".join(block.split()) in code else f"isn't in {path}"


def tables(_program):
    """Each file in a table of files is there."""
    folder = None
    for line, text in enumerate(text_of("docs/ARCHITECTURE.md").splitlines(), 1):
        heading = re.match(r"(?:The five programs|(\w+)), `src/`", text)
        if heading:
            folder = f"crates/{heading[1]}/src" if heading[1] else None
        elif text.startswith("#") or text.startswith("At the top"):
            folder = "." if text.startswith("At the top") else None
        row = re.match(r"\| ([^|]+) \|", text)
        for name in re.findall(r"`([\w./*]+\.\w+|[\w.]+/[\w/.*]*)`", row[1]) if row and folder else []:
            there = "*" in name or os.path.exists(f"{TOP}/{folder}/{name}")
            yield f"docs/ARCHITECTURE.md:{line}: {name}", None if there else f"isn't in {folder}"
