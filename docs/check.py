#!/usr/bin/env python3
"""Checks the pages: that links and anchors lead somewhere, that named files are there, that the README's map and the sections of
CONTRACTS have the crates of crates.txt in order, that the README is short and shows what the examples have stored, and that the
manual page renders without a warning, where groff or mandoc is. It stands outside the gate, and ends with status 1 where something is amiss."""

import os
import re
import shutil
import subprocess
import sys

TOP = os.path.dirname(os.path.dirname(os.path.abspath(__file__)))
PAGES = ["README.md"] + sorted(f"docs/{name}" for name in os.listdir(f"{TOP}/docs") if name.endswith(".md"))
MOST_LINES = 150
amiss = []


def text_of(path):
    with open(f"{TOP}/{path}", encoding="utf-8") as file:
        return file.read()


def anchors_of(page):
    """The anchors of a page's headings, as they are made of a heading's words."""
    heads = re.findall(r"(?m)^#+ (.*)$", text_of(page))
    return {re.sub(r"[^\w\- ]", "", head.lower()).replace(" ", "-") for head in heads}


def check_links(page):
    folder = os.path.dirname(page)
    for target in re.findall(r"\]\(([^)]+)\)", text_of(page)):
        path, _, anchor = target.partition("#")
        if "://" in path:
            continue
        path = os.path.normpath(os.path.join(folder, path)) if path else page
        if not os.path.exists(f"{TOP}/{path}"):
            amiss.append(f"{page}: {target} isn't there")
        elif anchor and anchor not in anchors_of(path):
            amiss.append(f"{page}: {target} has no such heading")


def check_named(page):
    """The files that a page names from the repository's top, or from the folder of the crates."""
    names = re.findall(r"`((?:examples|bench|docs|crates)/[\w./-]+)`", text_of(page))
    names += [f"crates/{name}" for name in re.findall(r"`(\w+/(?:src|specs|proofs)/[\w./-]+)`", text_of(page))]
    for name in sorted(set(names)):
        if not os.path.exists(f"{TOP}/{name}"):
            amiss.append(f"{page}: {name} isn't there")


def check_crates():
    lines = re.findall(r"(?m)^(\w+):", text_of("crates.txt"))
    crates = [name for name in lines if not name.endswith("_tests")]
    mapped = re.findall(r"(?m)^\| \[`(\w+)`\]\(docs/CONTRACTS\.md#", text_of("README.md"))
    sections = re.findall(r"(?m)^## `(\w+)`$", text_of("docs/CONTRACTS.md"))
    for place, names in (("README's map", mapped), ("CONTRACTS", sections)):
        if names != crates:
            amiss.append(f"{place} has not the crates of crates.txt in order: {set(names) ^ set(crates) or 'another order'}")


def check_readme():
    page = text_of("README.md")
    count = page.count("\n")
    if count > MOST_LINES:
        amiss.append(f"README.md has {count} lines, and {MOST_LINES} are the most")
    stored = "\n".join(text_of(name) for name in ("crates/xdptool/stdout", "crates/xdptool/data/first.xdp"))
    examples = [f"examples/{name}" for name in os.listdir(f"{TOP}/examples")]
    stored += "\n".join(text_of(path) for path in examples if path.endswith((".xdp", ".out", ".sh")))
    for block in re.findall(r"(?ms)^```\n(\$ .*?)^```$", page):
        for line in block.splitlines():
            if not line.startswith("$ ") and line not in stored.splitlines():
                amiss.append(f"README.md shows a line that no stored run has: {line}")


def check_manual():
    tools = [["groff", "-mdoc", "-ww", "-Tutf8"], ["mandoc", "-T", "lint", "-W", "warning"]]
    there = [words for words in tools if shutil.which(words[0])]
    if not there:
        print("neither groff nor mandoc is here: the manual page isn't looked at")
    for words in there:
        said = subprocess.run([*words, f"{TOP}/docs/xdptool.1"], capture_output=True, text=True)
        if said.stderr or said.returncode:
            amiss.append(f"docs/xdptool.1, by {words[0]}: {(said.stderr or said.stdout).strip()}")


for page in PAGES:
    check_links(page)
    check_named(page)
check_crates()
check_readme()
check_manual()
print(*amiss or ["the pages are well"], sep="\n")
sys.exit(bool(amiss))
