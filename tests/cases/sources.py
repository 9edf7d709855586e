"""The sources themselves: want of memory comes from the allocator and the system alone."""
import glob
import os
import re

TOP = os.path.dirname(os.path.dirname(os.path.dirname(os.path.realpath(__file__))))

# What is passed over: comments, strings, characters, and lines that bring in a name as it is.
PASSED_OVER = re.compile(
    r"""//[^\n]*|b?"(?:[^"\\]|\\.)*"|b?'(?:[^'\\\n]|\\.)'|^[ \t]*(?:pub )?use (?:(?! as )[^;])*;""", re.MULTILINE)
# Of the allocator's errors a source may name the types, AllocError as the last argument of a type. OutOfMemory itself has a
# private field, so that only an error of the system or unsafe code could still stand in for one.
MADE_UP = {
    "an AllocError": re.compile(r"(?<![<,])(?<![<,] )\bAllocError\b|\bAllocError\b(?!\s*>)"),
    "an AllocFailed": re.compile(r"\bAllocFailed\b(?!\s*<)"),
    "an error of the system": re.compile(r"\bErrorKind::OutOfMemory\b|\bErrorKind\s+as\b|\bfrom_raw_os_error\b"),
    "unsafe code": re.compile(r"\bunsafe\b"),
}
# The type, and what shows that these expressions find what they look for.
ALONE = "crates/scr_base/src/"
GOOD = "use std::alloc::{AllocError, AllocFailed};\nfn f() -> Result<Vec<u8>, AllocError> {} // AllocError\nimpl<T> From<AllocFailed<T>> for E {}"
BAD = ["Err(AllocError)", "let e: E = AllocError.into();", "Err(AllocFailed { value: 1 })", "AllocFailed::<u8> { value }",
       "io::ErrorKind::OutOfMemory.into()", "use std::alloc::AllocError as Other;", "Err(\n AllocError,\n)", "unsafe { zeroed() }"]


def made_up(text):
    """What a source makes, line by line."""
    code = PASSED_OVER.sub(lambda found: "\n" * found[0].count("\n"), text)
    return [(code.count("\n", 0, found.start()) + 1, what) for what, pattern in MADE_UP.items() for found in pattern.finditer(code)]


def made_up_wants(_program):
    """No source but those of scr_base makes an error that tells of want of memory."""
    yield "types alone", str(made_up(GOOD)) * bool(made_up(GOOD))
    for text in BAD:
        yield text, "" if made_up(text) else "it isn't found"
    for path in sorted(glob.glob(f"{TOP}/crates/*/src/**/*.rt", recursive=True)):
        name = os.path.relpath(path, TOP)
        if not name.startswith(ALONE):
            with open(path, encoding="utf-8") as file:
                yield name, "\n".join(f"line {line} makes {what}" for line, what in made_up(file.read()))
