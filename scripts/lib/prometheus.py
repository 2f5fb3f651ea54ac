"""Reads metrics in Prometheus' text format, version 0.0.4, and refuses what isn't it.

The format: https://prometheus.io/docs/instrumenting/exposition_formats/. It is read more strictly than Prometheus does: the lines of a
metric stand together, with HELP and TYPE in front, no counter is negative, and numbers are written as Go's ParseFloat takes them, without
`_` and without hexadecimal digits.

usage: python3 scripts/lib/prometheus.py [FILE]     (standard input without one): prints what was read, a sample a line; status 1 where it is bad
"""

import re
import sys
from dataclasses import dataclass, field

NAME = re.compile(r"[a-zA-Z_:][a-zA-Z0-9_:]*")
LABEL = re.compile(r"[a-zA-Z_][a-zA-Z0-9_]*")
VALUE = re.compile(r"[+-]?(?:(?:[0-9]+(?:\.[0-9]*)?|\.[0-9]+)(?:[eE][+-]?[0-9]+)?|[iI][nN][fF](?:[iI][nN][iI][tT][yY])?)|[nN][aA][nN]")
BLANKS = re.compile(r"[ \t]+")
TIMESTAMP = re.compile(r"-?[0-9]+")
KINDS = ("counter", "gauge", "histogram", "summary", "untyped")
# What stands behind the name of a metric in the names of its samples, by its kind.
SUFFIXES = {"histogram": ("_bucket", "_sum", "_count"), "summary": ("", "_sum", "_count")}


class BadText(ValueError):
    """A text that isn't in the format; it names the line, from 1 on."""


@dataclass
class Family:
    """A metric: its kind, what is said of it, and its samples by name and labels."""

    kind: str = "untyped"
    help: str | None = None
    samples: dict = field(default_factory=dict)
    is_typed: bool = False


def unescaped(text, escapes, line):
    """A text without its escapes: a backslash and a key of escapes."""
    out, at = [], 0
    while at < len(text):
        if text[at] != "\\":
            out.append(text[at])
            at += 1
            continue
        if text[at + 1 : at + 2] not in escapes or at + 1 == len(text):
            raise BadText(f"line {line}: a bad escape")
        out.append(escapes[text[at + 1]])
        at += 2
    return "".join(out)


def labels_of(text, line):
    """The labels behind a `{`, and what stands behind their `}`."""
    labels = {}
    while True:
        text = text.lstrip(" \t")
        if text.startswith("}"):
            return labels, text[1:]
        name = LABEL.match(text)
        if not name:
            raise BadText(f"line {line}: no name of a label")
        text = text[name.end() :].lstrip(" \t")
        if not text.startswith("="):
            raise BadText(f"line {line}: no = behind a label")
        value = re.match(r'"((?:[^"\\]|\\.)*)"', text[1:].lstrip(" \t"))
        if not value:
            raise BadText(f"line {line}: no value of a label")
        text = text[1:].lstrip(" \t")[value.end() :].lstrip(" \t")
        if name.group() in labels:
            raise BadText(f"line {line}: the label {name.group()} twice")
        labels[name.group()] = unescaped(value.group(1), {"\\": "\\", '"': '"', "n": "\n"}, line)
        if text.startswith(","):
            text = text[1:]
        elif not text.startswith("}"):
            raise BadText(f"line {line}: neither , nor }} behind a label")


def sample_of(text, line):
    """Name, labels and value of a sample."""
    name = NAME.match(text)
    if not name:
        raise BadText(f"line {line}: no name of a metric")
    rest, labels = text[name.end() :], {}
    if rest.lstrip(" \t").startswith("{"):
        labels, rest = labels_of(rest.lstrip(" \t")[1:], line)
    elif not rest.startswith((" ", "\t")):
        raise BadText(f"line {line}: a name of a metric goes on with {rest[:1]!r}")
    words = BLANKS.split(rest.strip(" \t"))
    if len(words) not in (1, 2) or not VALUE.fullmatch(words[0]):
        raise BadText(f"line {line}: no value")
    if len(words) == 2 and not TIMESTAMP.fullmatch(words[1]):
        raise BadText(f"line {line}: no timestamp")
    return name.group(), tuple(sorted(labels.items())), float(words[0])


def family_of(name, families):
    """The name of the metric that a sample of this name belongs to."""
    for base, family in families.items():
        if any(name == base + suffix for suffix in SUFFIXES.get(family.kind, ())):
            return base
    return name


def read_comment(text, families, current, line):
    """Takes a line of HELP or TYPE; the metric that it is of, or None where it is any other comment."""
    words = BLANKS.split(text[1:].strip(" \t"), maxsplit=2)
    if words[0] not in ("HELP", "TYPE"):
        return None
    if len(words) < 2 or not NAME.fullmatch(words[1]):
        raise BadText(f"line {line}: {words[0]} of no metric")
    name, rest = words[1], words[2] if len(words) == 3 else ""
    if name in families and name != current:
        raise BadText(f"line {line}: {name} goes on behind another metric")
    family = families.setdefault(name, Family())
    if family.samples:
        raise BadText(f"line {line}: {words[0]} behind a sample")
    if words[0] == "HELP":
        if family.help is not None:
            raise BadText(f"line {line}: HELP twice")
        family.help = unescaped(rest, {"\\": "\\", "n": "\n"}, line)
    else:
        if family.is_typed:
            raise BadText(f"line {line}: TYPE twice")
        if rest.strip() not in KINDS:
            raise BadText(f"line {line}: {rest.strip()!r} is no kind")
        family.kind, family.is_typed = rest.strip(), True
    return name


def read_sample(text, families, current, line):
    """Takes a sample; the metric that it is of."""
    name, labels, value = sample_of(text, line)
    base = family_of(name, families)
    if base in families and base != current:
        raise BadText(f"line {line}: {base} goes on behind another metric")
    family = families.setdefault(base, Family())
    if (name, labels) in family.samples:
        raise BadText(f"line {line}: the same sample twice")
    if family.kind == "counter" and not value >= 0:
        raise BadText(f"line {line}: a counter below 0")
    family.samples[name, labels] = value
    return base


def parse(text):
    """The metrics of a text, by name."""
    if isinstance(text, bytes):
        text = text.decode("utf-8")
    if text and not text.endswith("\n"):
        raise BadText("the last line doesn't end")
    families, current = {}, None
    for line, written in enumerate(text.split("\n")[:-1], 1):
        stripped = written.strip(" \t")
        if stripped.startswith("#"):
            current = read_comment(stripped, families, current, line) or current
        elif stripped:
            current = read_sample(stripped, families, current, line)
    for name, family in families.items():
        if not family.samples and family.is_typed and family.kind in ("counter", "gauge", "untyped"):
            raise BadText(f"{name} has no sample")
    return families


def main():
    try:
        with open(sys.argv[1], "rb") if len(sys.argv) > 1 else sys.stdin.buffer as file:
            families = parse(file.read())
    except (BadText, UnicodeDecodeError) as fault:
        print(fault, file=sys.stderr)
        return 1
    for base, family in families.items():
        for (name, labels), value in family.samples.items():
            shown = ",".join(f"{key}={text!r}" for key, text in labels)
            print(f"{family.kind} {name}{{{shown}}} {value:g}")
    return 0


if __name__ == "__main__":
    sys.exit(main())
