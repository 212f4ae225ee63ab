"""What docs/DEFINITIONS.md says of the definitions: which files a section names and how many lines these have; that the
sections name every file of definitions on which the contract of `format_command` stands, each behind those that it
takes words from; and that the page lists the words of the contract.

A section names its files in a paragraph such as "**357 lines:** `c_grammar`: `Grammar`, `Items`; `touching`:
`Spelling`".
"""
import os
import re

TOP = os.path.dirname(os.path.dirname(os.path.abspath(__file__)))
PAGE = os.path.join(TOP, "docs", "DEFINITIONS.md")
CONTRACT = os.path.join(TOP, "crates", "format_cli", "src", "command.rt")
USE = re.compile(r"^(?:pub |ghost )*use Rattle\.([\w.]+?)\.\{([^}]*)\}", re.M)
WORD = re.compile(r"[^\W\d][\w']*")
DECLARED = re.compile(r"(?:(?:abbrev|unfoldable|pub)\s+)+(?:(record|data)\s+)?([^\W\d][\w']*)")
FRONT = re.compile(r"(?:data\s+)?([^\W\d][\w']*)")
CONSTRUCTOR = re.compile(r"\s+(?:pub )?([^\W\d][\w']*)\s*:")
COUNTED = re.compile(r"^\*\*([\d,]+) lines:\*\* (.*?)(?=\n\n)", re.M | re.S)
TOTAL = re.compile(r"\*\*([\d,]+) files with ([\d,]+) lines\*\*")


def text(path):
    with open(path, encoding="utf-8") as file:
        return file.read()


def file_of(module):
    crate, *rest = module.split(".")
    return os.path.join(TOP, "crates", crate, *rest) + ".antt"


def lines_of(module):
    return text(file_of(module)).count("\n")


def imports_of(source):
    """The words that a file takes from others, and where each stands."""
    found = {}
    for module, words in USE.findall(source):
        for word in filter(None, (it.strip() for it in words.split(","))):
            named, _, alias = word.partition(" as ")
            found[alias or named] = module, named
    return found


def definitions_of(source):
    """The words of each definition of a file; a constructor is a word of its type."""
    found, types, current, depth, in_data = {}, {}, None, 0, False
    for line in source.split("\n"):
        line = line.split("-- ")[0].rstrip()
        if not line or line.startswith(("use ", "pub use", "pub mod", "--")):
            continue
        if not line[0].isspace():
            depth = 2 if re.match(r"(abbrev |unfoldable |pub )*mutual\b", line) else 0
        line = line[depth:] if depth and line.startswith("  ") else line
        declared, front = DECLARED.match(line), FRONT.match(line)
        if declared:
            current, in_data = declared.group(2), declared.group(1) == "data"
            found.setdefault(current, set())
        elif front and front.group(1) in found:
            current, in_data = front.group(1), False
        elif in_data and CONSTRUCTOR.match(line):
            types[CONSTRUCTOR.match(line).group(1)] = current
        if current:
            found[current] |= set(WORD.findall(line))
    return {**found, **{name: {of} for name, of in types.items() if name not in found}}


def contract():
    """The words of the contract of `format_command` that are imported, and where each stands."""
    source = text(CONTRACT)
    clauses = source[source.index("pub fn format_command") :].split("\n{\n")[0]
    imported = imports_of(source)
    return {word: imported[word] for word in WORD.findall(clauses) if word in imported}


def reached():
    """The modules of the repository with a definition on which the contract of `format_command` stands, and for each of
    them those that its definitions take words from."""
    waiting, files, seen, found = [(*it, None) for it in contract().values()], {}, set(), {}
    while waiting:
        module, word, above = waiting.pop()
        if ".declared" in module or not os.path.exists(file_of(module)):
            continue
        found.setdefault(module, set())
        if above:
            found[above].add(module)
        if (module, word) in seen:
            continue
        seen.add((module, word))
        if module not in files:
            files[module] = imports_of(text(file_of(module))), definitions_of(text(file_of(module)))
        taken, defined = files[module]
        for other in defined.get(word, ()):
            if other in defined:
                waiting.append((module, other, None))
            elif other in taken:
                waiting.append((*taken[other], module))
    return found


def modules_in(paragraph):
    """The modules that a paragraph of files names."""
    for part in paragraph.split(";"):
        crate, *names = re.findall(r"`(\w+)`", part)
        yield from (f"{crate}.specs.{name}" for name in names)


def sections():
    """Of each section that names files: its heading, the number that it tells, and the modules."""
    for section in re.split(r"^## ", text(PAGE), flags=re.M)[1:]:
        for number, paragraph in COUNTED.findall(section):
            yield section.split("\n")[0], number, list(modules_in(paragraph))


def check_sections(check):
    """Answers the number of the section that names each module."""
    named = {}
    for place, (heading, number, modules) in enumerate(sections()):
        missing = [it for it in modules if not os.path.exists(file_of(it))]
        check(not missing, f'docs/DEFINITIONS.md, "{heading}": no such files: {missing}')
        count = sum(lines_of(it) for it in modules if it not in missing)
        check(number == f"{count:,}", f'docs/DEFINITIONS.md, "{heading}": {count:,} lines, not {number}')
        named.update(dict.fromkeys(modules, place))
    return named


def check_all(check):
    named, stands = check_sections(check), reached()
    for module, below in sorted(stands.items()):
        check(module in named, f"docs/DEFINITIONS.md: the contract stands on {module}, which no section names")
        late = [it for it in below if named.get(it, 0) > named.get(module, 0)]
        check(not late, f"docs/DEFINITIONS.md: {module} takes words from {late}, which come behind it")
    total = f"{len(stands):,}", f"{sum(map(lines_of, stands)):,}"
    check(TOTAL.findall(text(PAGE)) == [total], f"docs/DEFINITIONS.md: {total[0]} files with {total[1]} lines in all")
    listed = set(WORD.findall(text(PAGE).split("## The words of the contract")[1].split("\n## ")[0]))
    for word in contract():
        check(word in listed, f"docs/DEFINITIONS.md says nothing of {word}, a word of the contract")


def write_counts():
    """Puts the numbers into the page as they are."""

    def counted(match):
        return f"**{sum(map(lines_of, modules_in(match.group(2)))):,} lines:** {match.group(2)}"

    stands = reached()
    total = f"**{len(stands):,} files with {sum(map(lines_of, stands)):,} lines**"
    page = TOTAL.sub(total, COUNTED.sub(counted, text(PAGE)))
    with open(PAGE, "w", encoding="utf-8") as file:
        file.write(page)
