"""The built program, and what the scripts that try it share."""
import pathlib
import re
import sys

TOP = pathlib.Path(__file__).resolve().parent.parent
BUILT = TOP / "crates" / "dactl_cli" / "out" / "dactl_cli"
CODES = {"normal": 0, "ok": 0, "budget": 1, "usage:": 2, "refused": 3, "full": 4, "read": 5, "memory": 7, "too": 8,
         "small": 9, "valid": 0, "invalid": 11, "missing": 12, "bad": 13, "no": 14}


def program_or_end(path):
    """The path of the program to try. Without it the script ends with status 2."""
    program = pathlib.Path(path) if path else BUILT
    if not program.is_file():
        script = pathlib.Path(sys.argv[0]).name
        print(f"tools/{script}: no program at {program}: ./dactl < examples/append.dactl builds it", file=sys.stderr)
        sys.exit(2)
    return str(program.resolve())


def code_of(output):
    """The exit code that belongs to a whole output, or None where it is no answer."""
    found = re.match(rb"[a-z]+:?", output)
    return CODES.get(found[0].decode()) if found else None


def examples():
    """Each example: its name, the words it is run with, its text, what it prints."""
    for path in sorted((TOP / "examples").glob("*.dactl")):
        args = path.with_suffix(".args")
        words = args.read_text().split() if args.exists() else []
        yield path.stem, words, path.read_bytes(), path.with_suffix(".out").read_bytes()
