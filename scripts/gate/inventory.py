#!/usr/bin/env python3
"""Public functions of crates with their comments and clauses: python3 scripts/gate/inventory.py [CRATE ..], all of crates.txt without one.

Of each public function it prints its file, the first sentence of its `///`, and the names of its `ensures` clauses: 'one clause' where a
single one has no name, 'no ensures' where there is none. Of a public trait it prints each function that the trait asks for; what
implements a trait promises what the trait says, and isn't printed again. A crate that passes words of others on under its own name says
which. A program has no public functions. It reads `src/**/*.rt` as `rt fmt` lays it out, and proves nothing.
"""

import os
import re
import sys

TOP = os.path.dirname(os.path.dirname(os.path.dirname(os.path.abspath(__file__))))
FUNCTION = re.compile(r"(pub )?(?:const )?fn (\w+)")
OWNER = re.compile(r"(impl|(?:pub )?trait)\b(.*)\{$")


def crates_in_order():
    with open(os.path.join(TOP, "crates.txt"), encoding="utf-8") as file:
        return [line.split(":")[0] for line in file if re.match(r"\w+:", line)]


def modules(folder, name, is_public, shown):
    """Each file below a module, with whether its names can be reached from outside; `shown` gathers those that `pub use` names."""
    path = folder + "/" + name + ".rt"
    with open(path, encoding="utf-8") as file:
        text = file.read()
    yield path, text.split("\n"), is_public
    for used in re.findall(r"^pub use ([^;]+);", text, re.M):
        shown.extend(re.findall(r"\w+", used.split("::")[-1] if "{" not in used else used.split("{")[1]))
    below = folder if name == "lib" else folder + "/" + name
    for keyword, child in re.findall(r"^(pub )?mod (\w+);", text, re.M):
        yield from modules(below, child, is_public and bool(keyword), shown)


def passed_on(lines, crates):
    text = " ".join(lines)
    return [" ".join(used.split()) for used in re.findall(r"pub use ([^;]+);", text) if used.split("::")[0] in crates]


def without_brackets(text):
    """A type or a trait without what stands in angle brackets."""
    while re.search(r"<[^<>]*>", text):
        text = re.sub(r"<[^<>]*>", "", text)
    return text


def owner_of(line):
    """The type or trait whose functions follow, and whether it's a trait. An implementation of a trait has no owner."""
    kind, rest = OWNER.match(line.replace("->", "")).groups()
    rest = without_brackets(rest).split(" where ")[0].split(":")[0].strip()
    if kind == "impl" and " for " in rest:
        return None, False
    return rest, kind != "impl"


def clauses_from(lines, at, indent):
    """The names of the `ensures` clauses of the function that begins at a line; of one without a name, the empty text."""
    names, depth = [], 0
    for line in lines[at:]:
        text = line.strip()
        clause = re.match(r"ensures(?: (\w+))? \{", text)
        if clause and depth == 0:
            names.append(clause.group(1) or "")
        depth += text.count("{") - text.count("}")
        at_edge = len(line) - len(line.lstrip()) == indent
        if (at_edge and text.endswith(("{", "{}"))) or (depth == 0 and text.endswith(";")):
            break
    return names


def functions(lines):
    """Each function outside bodies: its owner, whether that is a trait, whether `pub` stands before it, its name, comment and clauses."""
    owner, is_trait, comment, in_attribute = "", False, [], False
    for at, line in enumerate(lines):
        text = line.strip()
        indent = len(line) - len(line.lstrip())
        if in_attribute or text.startswith("#["):
            in_attribute = not text.endswith("]")
            continue
        if text.startswith("///"):
            comment.append(text[3:].strip())
            continue
        if indent == 0 and OWNER.match(text.replace("->", "")):
            owner, is_trait = owner_of(text)
        elif line == "}":
            owner, is_trait = "", False
        found = FUNCTION.match(text)
        if found and indent == (0 if owner == "" else 4):
            keyword, name = found.groups()
            yield owner, is_trait, bool(keyword), name, " ".join(comment), clauses_from(lines, at, indent)
        comment = []


def first_sentence(comment):
    found = re.match(r".*?\.(?=\s|$)", comment)
    return found.group(0) if found else comment or "(no comment)"


def public_types(files, shown):
    """The types and traits of a crate that can be reached from outside: their functions can be too, wherever they stand."""
    for _, lines, is_public in files:
        for line in lines:
            found = re.match(r"pub (?:struct|enum|trait|type|ghost struct) (\w+)", line)
            if found and (is_public or found.group(1) in shown):
                yield found.group(1)


def inventory(crate, crates):
    """Prints one crate, and answers how many functions it has and how many of them have no `ensures`."""
    folder = f"{TOP}/crates/{crate}/src"
    if not os.path.exists(folder + "/lib.rt"):
        print(f"{crate}: " + ("a program" if os.path.exists(folder + "/main.rt") else "no such crate"))
        return 0, 0
    shown = []
    files = list(modules(folder, "lib", True, shown))
    types = set(public_types(files, shown))
    print(crate)
    for used in passed_on(files[0][1], crates):
        print(f"  passes on {used}")
    count = bare = 0
    for path, lines, is_public in files:
        for owner, is_trait, keyword, name, comment, names in functions(lines):
            can_be_reached = (keyword or is_trait) and owner in types if owner else keyword and (is_public or name in shown)
            if owner is None or not can_be_reached:
                continue
            count, bare = count + 1, bare + (not names)
            told = "no ensures" if not names else "one clause" if names == [""] else "ensures " + ", ".join(names)
            print(f"  {owner + '::' if owner else ''}{name}  {os.path.relpath(path, TOP)}")
            print(f"      {first_sentence(comment)}")
            print(f"      {told}")
    print(f"  {count} public functions, {bare} without ensures")
    return count, bare


def main():
    crates = crates_in_order()
    chosen = sys.argv[1:] or crates
    unknown = [crate for crate in chosen if crate not in crates]
    if unknown:
        sys.exit(f"{' '.join(unknown)}: not in crates.txt")
    counts = [inventory(crate, crates) for crate in chosen]
    if len(chosen) > 1:
        print(f"{sum(count for count, _ in counts)} public functions of {len(chosen)} crates, {sum(bare for _, bare in counts)} without ensures")


main()
