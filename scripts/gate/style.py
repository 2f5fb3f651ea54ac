"""Looks for what the prover doesn't see and this repository keeps:

- a contract or a definition that imports another crate's proofs/ (a word of a contract stands in specs/)
- a line of definitions, proofs or code of more than 140 columns (a text in quotes, a list of imports and an attribute, which
  rt fmt keeps on one line, may be longer)
- a clause of a contract of more than 100 columns
- a function whose comment is written with `//` in place of `///`

    python3 scripts/gate/style.py

Takes a second and changes nothing. Fails where it finds something.
"""
import glob, os, re, sys

os.chdir(os.path.dirname(os.path.abspath(__file__)) + "/../..")


def lines_of(path):
    with open(path, encoding="utf-8") as file:
        return list(enumerate(file.read().split("\n"), 1))


def files(*forms):
    return sorted(path for form in forms for path in glob.glob(form, recursive=True))


def without_quotes(line):
    return re.sub(r'"(\\.|[^"\\])*"', '""', line)


def imports(path):
    """Imports of another crate's proofs."""
    for number, line in lines_of(path):
        for name in re.findall(r"Rattle\.([a-z_]+)\.proofs", line):
            if name not in (path.split("/")[1], "std"):
                yield f"{path}:{number}: imports the proofs of {name}"


def long_lines(path):
    for number, line in lines_of(path):
        if len(without_quotes(line)) > 140 and not re.match(r"(pub )?(ghost )?use |#\[", line.strip()):
            yield f"{path}:{number}: {len(line)} columns"


def clauses_and_comments(path):
    """Long clauses, and functions whose comment isn't one of documentation."""
    before, clause = "", False
    for number, line in lines_of(path):
        text = line.strip()
        clause = clause or re.match(r"(requires|ensures|invariant)\b", text) is not None
        if clause and len(line) > 100:
            yield f"{path}:{number}: a clause of {len(line)} columns"
        if clause and text.endswith(("}", "};", "{")):
            clause = False
        if re.match(r"(pub(\(crate\))? )?(const |unsafe )*fn \w", text) and re.match(r"//($|[^/!])", before):
            yield f"{path}:{number}: a comment without ///: {text[:60]}"
        if text and not text.startswith("#["):
            before = text
        elif not text:
            before = ""


def main():
    code = "crates/*/src/**/*.rt"
    ways = ((imports, files("crates/*/specs/*.antt", code)),
            (long_lines, files("crates/*/s*/**/*.antt", "crates/*/proofs/**/*.antt", code)),
            (clauses_and_comments, files(code)))
    found = [line for way, paths in ways for path in paths for line in way(path)]
    for line in found:
        print(line)
    print(f"{len(found)} places to look at")
    sys.exit(1 if found else 0)


main()
