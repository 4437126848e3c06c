#!/usr/bin/env python3
"""Which packages of Debian have a crate and all that it depends on: crates.py PACKAGE < `apt-cache dumpavail`. Prints their names.

What a suite lacks is left out, since a build needs few of the crates that a package's optional features name."""

import sys

DEPENDS, PROVIDERS = {}, {}


def names_in(words, separator):
    """The names of packages, without their versions."""
    return [it.strip().split(" ")[0].split(":")[0] for it in words.split(separator)]


def read_package(block):
    """Notes what a package of a crate depends on, each as a list of alternatives, and the names that it provides."""
    fields = dict(line.split(": ", 1) for line in block.split("\n") if line[:1] != " " and ": " in line)
    name = fields.get("Package", "")
    if name.startswith("librust-"):
        DEPENDS[name] = [names_in(it, "|") for it in fields.get("Depends", "").split(",")]
        PROVIDERS[name] = name
        for it in names_in(fields.get("Provides", ""), ","):
            PROVIDERS.setdefault(it, name)


for text in sys.stdin.read().split("\n\n"):
    read_package(text)
found, rest = set(), [[sys.argv[1]]]
while rest:
    package = next((PROVIDERS[it] for it in rest.pop() if it in PROVIDERS), None)
    if package and package not in found:
        found.add(package)
        rest += DEPENDS[package]
print(*sorted(found), sep="\n")
