#!/usr/bin/env python3
"""Finds links of the documents that lead nowhere.

    python3 tools/links.py      README.md, docs/, and each README.md of the repository

A link to a file has to lead to one, and one to a heading (`#what-is-proved`) to that heading. Addresses of the web are passed over.
"""
import re
import sys
from pathlib import Path

TOP = Path(__file__).resolve().parents[1]
LINK = re.compile(r"\]\(([^)\s]+)\)")


def documents():
    files = {TOP / "README.md", *TOP.glob("docs/**/*.md"), *TOP.rglob("README.md")}
    return sorted(it for it in files if "out" not in it.relative_to(TOP).parts)


def anchor(heading):
    """The name under which a heading is linked to."""
    text = re.sub(r"[^\w\s-]", "", heading.lstrip("#").strip().lower())
    return re.sub(r"\s", "-", text)


def leads(document, link):
    """Whether a link of a document leads somewhere."""
    path, _, name = link.partition("#")
    file = document.parent / path if path else document
    if not name or file.suffix != ".md":
        return file.exists()
    return file.exists() and name in {anchor(line) for line in file.read_text().splitlines() if line.startswith("#")}


def main():
    bad = [(it, link) for it in documents() for link in LINK.findall(it.read_text()) if "://" not in link and not leads(it, link)]
    for document, link in bad:
        print(f"{document.relative_to(TOP)}: {link} leads nowhere")
    return 1 if bad else 0


if __name__ == "__main__":
    sys.exit(main())
