"""The links of the pages, and the contents of the long ones."""
import os
import re

TOP = os.path.dirname(os.path.dirname(os.path.abspath(__file__)))
LINK = re.compile(r"(?<!!)\[[^\]\n]*(?:\n[^\]\n]*)?\]\(([^)\s]+)\)")
FENCE = re.compile(r"^```.*?^```", re.M | re.S)
CODE = re.compile(r"`[^`\n]*`")
HEADING = re.compile(r"^(#+) (.*)$", re.M)
SAMPLE = re.compile(r"\||    ")
LONG = 150
# How many columns prose has at most: that of the README, which people read in narrow windows, and that of other pages.
README_WIDTH, WIDTH = 100, 120


def text(path):
    with open(os.path.join(TOP, path), encoding="utf-8") as file:
        return file.read()


def headings(page):
    """The level, the words and the anchor of each heading of a page, as GitHub makes anchors."""
    seen = {}
    for marks, words in HEADING.findall(FENCE.sub("", page)):
        anchor = re.sub(r"[^\w\- ]", "", words.lower()).replace(" ", "-")
        count = seen.get(anchor, 0)
        seen[anchor] = count + 1
        yield len(marks), words, f"{anchor}-{count}" if count else anchor


def links(page):
    return LINK.findall(CODE.sub(lambda it: re.sub(r"[\[\]()]", ".", it.group()), FENCE.sub("", page)))


def check_links(check, path):
    for target in links(text(path)):
        if re.match(r"\w+:", target):
            continue
        file, _, anchor = target.partition("#")
        to = os.path.normpath(os.path.join(os.path.dirname(path), file)) if file else path
        there = os.path.exists(os.path.join(TOP, to))
        check(there, f"{path}: a link to {target}, which isn't there")
        if there and anchor:
            anchors = [it for _, _, it in headings(text(to))]
            check(anchor in anchors, f"{path}: a link to {target}, where no such heading is")


def check_contents(check, path):
    """A long page of docs/ begins with links to its headings of the second level, in order."""
    page = text(path)
    if page.count("\n") <= LONG:
        return
    wanted = [f"#{anchor}" for level, _, anchor in headings(page) if level == 2]
    listed = [it for it in links(page.split("\n## ")[0]) if it in wanted]
    check(listed == wanted, f"{path}: its contents lack {[it for it in wanted if it not in listed] or 'the order'}")


def check_width(check, path):
    """Prose has lines as long as a person reads; tables and samples are as long as they are."""
    width = README_WIDTH if path == "README.md" else WIDTH
    wide = [line for line in FENCE.sub("", text(path)).split("\n") if len(line) > width and not SAMPLE.match(line)]
    check(not wide, f"{path}: prose over {width} columns: {wide[:1]}")


def check_all(check, paths):
    for path in paths:
        check_links(check, path)
        if path.startswith("docs/"):
            check_contents(check, path)
        check_width(check, path)
