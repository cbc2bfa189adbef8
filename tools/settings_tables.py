#!/usr/bin/env python3
"""Writes the tables of docs/SETTINGS.md from the table of keys in crates/rw_settings/src/keys.rt and its comments.

usage: tools/settings_tables.py

`tools/check-documents` checks that the page has these tables.
"""
import os
import re

SOURCE, PAGE = "crates/rw_settings/src/keys.rt", "docs/SETTINGS.md"
HEADINGS = {"SEND": "## `[send]`", "RECEIVE": "## `[receive]`", "LOG": "## `[log]`", "RULE": "## `[[rule]]`"}
# The default of each kind of key, and what it takes. A text has its default in its comment.
KINDS = {
    "Host": ("`localhost:9090`", "1 to 255 bytes, each `!` to `~`"),
    "Path": (
        "`/api/v1/write`",
        "1 to 255 bytes: `/`, and then ASCII letters and digits, `/`, `-`, `.`, `_`, `~`, `%`, `?`, `=` and `&`",
    ),
    "Names": ("`legacy`", "`legacy` or `utf8`"),
    "Switch": ("`false`", "`true` or `false`"),
    "Action": ("required", "`keep` or `drop`"),
    "Fields": ("none", "a table of names and values"),
    "Part": ("none", "a table of names and values, each a string that is not empty"),
    "Labels": ("required", "a list of strings, at least one"),
}
KEY = re.compile(r'((?:^/// .*\n)+)^pub\(crate\) const (\w+): Key =\s+Key\(\s*"(\w+)",\s*Kind::(\w+)(?:\(([\d_, ]+)\))?,?\s*\);', re.M)


def row_of(comment, key, kind, numbers):
    meaning = " ".join(line[4:] for line in comment.splitlines())
    if numbers:
        low, high, default = (int(it) for it in numbers.split(","))
        takes = f"{low:,} to {high:,}"
    elif kind == "Text":
        meaning, default = re.fullmatch(r"(.*?\.?) \(default (.*)\)\.", meaning).groups()
        meaning, takes = meaning.rstrip(".") + ".", "a string"
    else:
        default, takes = KINDS[kind]
    return f"| `{key}` | {default} | {takes} | {meaning} |\n"


def with_tables(page, source):
    """Returns the page with the tables of the source: under each heading, in place of the first table."""
    rows = {it[2]: row_of(it[1], *it.groups()[2:]) for it in KEY.finditer(source)}
    for name, heading in HEADINGS.items():
        keys = re.findall(r"\w+", re.search(rf"^static {name}: .*? = \[(.*?)\];", source, re.M | re.S)[1])
        table = "| Key | Default | Takes | Meaning |\n|---|---|---|---|\n" + "".join(rows[it] for it in keys)
        page = re.sub(rf"(^{re.escape(heading)}.*?\n)(?:\|[^\n]*\n)+", lambda it: it[1] + table, page, count=1, flags=re.M | re.S)
    return page


def read(path):
    with open(path, encoding="utf-8") as file:
        return file.read()


if __name__ == "__main__":
    os.chdir(os.path.dirname(os.path.dirname(os.path.abspath(__file__))))
    page = with_tables(read(PAGE), read(SOURCE))
    with open(PAGE, "w", encoding="utf-8") as file:
        file.write(page)
