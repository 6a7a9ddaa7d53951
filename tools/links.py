#!/usr/bin/env python3
"""Finds dead links in the pages of the repository.

A link to a file of the repository is dead if the file is missing, or if the link has an anchor that no heading of the page has.
Links to other places, such as https://, are not checked. Text in a block of code is no link.

Usage: tools/links.py [DIRECTORY]; DIRECTORY is the repository if absent.
"""
import pathlib
import re
import subprocess
import sys

LINK = re.compile(r"(?<!!)\[[^\]]*\]\(([^)\s]+)\)")
ELSEWHERE = re.compile(r"[a-z]+:")


def outside_code(page):
    """Returns the text of a page, with an empty line for each line of a block of code."""
    in_code = False
    lines = []
    for line in page.read_text().splitlines():
        bound = line.lstrip().startswith("```")
        lines.append("" if in_code or bound else line)
        in_code ^= bound
    return "\n".join(lines)


def anchors(page):
    """Yields the anchors of a page's headings, as the site makes them: lower case, hyphens for spaces, no other signs."""
    seen = {}
    for heading in re.findall(r"^#{1,6} +(.*?) *$", outside_code(page), re.MULTILINE):
        text = re.sub(r"\[([^\]]*)\]\([^)]*\)", r"\1", heading).lower()
        anchor = re.sub(r"[^\w\- ]", "", text).replace(" ", "-")
        again = seen.get(anchor, 0)
        seen[anchor] = again + 1
        yield f"{anchor}-{again}" if again else anchor


def links_of(page):
    """Yields the links of a page to places of the repository, each with the number of its line."""
    text = re.sub(r"`[^`\n]*`", lambda code: "`" * len(code[0]), outside_code(page))
    for link in LINK.finditer(text):
        if not ELSEWHERE.match(link[1]):
            yield text.count("\n", 0, link.end()) + 1, link[1]


def fault_of(page, target, root):
    """Returns what is wrong with a link of a page, or None."""
    name, _, anchor = target.partition("#")
    aim = (page.parent / name).resolve() if name else page
    if not aim.is_relative_to(root) or not aim.exists():
        return "no such file"
    if anchor and (aim.suffix != ".md" or anchor not in set(anchors(aim))):
        return "no such heading"
    return None


def main():
    root = pathlib.Path(sys.argv[1] if len(sys.argv) > 1 else pathlib.Path(__file__).parent.parent).resolve()
    names = subprocess.run(["git", "ls-files", "*.md"], cwd=root, check=True, capture_output=True, text=True).stdout.split()
    links = [(page, number, target) for page in map(root.joinpath, names) for number, target in links_of(page)]
    dead = [(page, number, target, fault) for page, number, target in links if (fault := fault_of(page, target, root))]
    for page, number, target, fault in dead:
        print(f"{page.relative_to(root)}:{number}: {target}: {fault}")
    if not links:
        print("no links found")
    else:
        print(f"{len(links)} links in {len(names)} pages, {len(dead)} dead")
    sys.exit(1 if dead or not links else 0)


if __name__ == "__main__":
    main()
