"""The tokens of texts as clang and gcc read them, for bench/fuzz: where comments stand, what is switched off, and which
texts needn't stay when they are formatted again."""
import os
import re
import subprocess

SECONDS = 60
LINE_END = re.compile(rb"\r\n|\r|\n")
SPLICE = rb"(?:\\|\?\?/)\r?\n"
SPLICED = re.compile(SPLICE)
WHITE = re.compile(rb"(?:%s|[ \t\n\v\f\r])+" % SPLICE)
LEADING = re.compile(rb"(?:%s)*" % SPLICE)
TRAILING = re.compile(rb"(?:%s|[ \t\n\v\f\r])+$" % SPLICE)
UNCLEAN = rb"(?: \[UnClean='(.*?)'\])?"
TOKEN = re.compile(rb"(\w+) '(.*?)'\t((?: \[[A-Za-z]+\])*)%s\tLoc=<(\d+\.c):(\d+):(\d+)>\n" % UNCLEAN, re.S)
# At the end of a text clang counts a NUL to an open quote or a comment.
ENDS = b" \t\n\v\f\r\0"
QUOTE = re.compile(rb"(?:u8|[uUL])?[\"']")
OFF = re.compile(rb"clang-format off(?::.*)?", re.S)
ON = re.compile(rb"clang-format on(?::.*)?", re.S)
# What the compilers read otherwise than C11: a late splice, and for clang a return alone.
OTHERWISE = re.compile(rb"(?:\\|\?\?/)[ \t\v\f\0]+\r?\n|\r(?!\n)|\n\r")
# The marks of other encodings than UTF-8, with which clang reads no text.
MARKED = re.compile(rb"\xfe\xff|\xff\xfe|\0\0\xfe\xff|\+/v|\xf7dL|\xddsfs|\x0e\xfe\xff|\xfb\xee\(|\x841\x953")
# The beginning of a comment in a header name, which C11 leaves open (6.4.7p3): compilers take it for a part of the
# name, and clang's cut, which reads no directives, for a comment.
COMMENT_IN_NAME = re.compile(rb"#[ \t]*include[ \t]*<[^>\n]*/[*/]")
# What keeps bytes of the input, so that a column of it counts.
STAYS = re.compile(rb"clang-|#[ \t]*if[ \t]+0")
NO_SPLICE = rb"(?<!\\\n)(?<!\\\r\n)(?<!\?\?/\n)(?<!\?\?/\r\n)"
INCLUDE = re.compile(NO_SPLICE + rb"^([ \t]*#[ \t]*)(?:include_next|include|import)\b", re.M)
QUOTED = rb'"(?:[^"\\\n]|\\.)*"|\'(?:[^\'\\\n]|\\.)*\''
WORD = re.compile(QUOTED + rb"|[A-Za-z_$][\w$]*|\.{3}|\.?\d(?:[eEpP][-+]|[\w.])*|\S", re.S)


def bare(text):
    """A text without white space and spliced line ends."""
    return WHITE.sub(b"", text)


def has_other_word_characters(spelling):
    """Whether the compilers take a character into a word that Unicode's XID leaves out (Annex D of C11)."""
    return any(ord(it) > 127 and not ("a" + it).isidentifier() for it in spelling.decode("utf-8", "ignore"))


def may_turn_its_line_ends(text, once):
    """Whether the output has more line ends of the other kind: a splice or an empty line went ("Line ends")."""
    ends = [(it.count(b"\r\n"), it.count(b"\n") - it.count(b"\r\n")) for it in (text, once)]
    turned = [(two > one, one > two) for two, one in ends]
    return turned[0] != turned[1]


def is_read_otherwise(text):
    """Whether the compilers read it otherwise than C11, whatever its tokens are."""
    return bool(OTHERWISE.search(text) or MARKED.match(text) or COMMENT_IN_NAME.search(text))


def behind_row(text):
    """What stands in the row of its end: rows that a splice joins are one."""
    return SPLICED.sub(b"", text).rpartition(b"\n")[2]


def before_row(text):
    """What stands in the row of its beginning."""
    return SPLICED.sub(b"", text).partition(b"\n")[0]


def place(text, count, after):
    """The place behind so many bytes that are no white space, and before or behind the white space there."""
    seen = at = 0
    for white in WHITE.finditer(text):
        if seen + white.start() - at > count or (seen + white.start() - at == count and after):
            break
        seen, at = seen + white.start() - at, white.end()
    return at + count - seen


class Tokens:
    """The tokens of a text as clang cuts it, and its comments with their places."""

    def __init__(self, text):
        self.text, self.found, self.comments, self.rows = text, [], [], None
        # Whether the line is a directive, which brackets wait outside directives and in this one, and whether the text
        # may change when formatted again.
        self.in_directive, self.waiting, self.may_change = False, [], b"::" in text or STAYS.search(text)
        self.waiting_here = []
        self.is_read_otherwise = is_read_otherwise(text)
        # The line begins with white space that clang takes for its first token.
        self.is_begun = False

    def offset(self, line, column):
        if self.rows is None:
            self.rows = [0, *(end.end() for end in LINE_END.finditer(self.text))]
        return self.rows[line - 1] + column - 1

    def add_comment(self, spelling, raw, line, column):
        begun = self.offset(int(line), int(column))
        end = len(self.text) if spelling is None else begun + len(TRAILING.sub(b"", raw))
        self.comments.append((spelling, begun + LEADING.match(raw).end(), end))

    def add(self, kind, spelling, flags, raw, line, column):
        if kind == b"comment":
            raw = raw or spelling
            self.add_comment(spelling, raw, line, column)
            # clang doesn't always clean the spelling of a comment, so its bytes are compared.
            spelling = TRAILING.sub(b"", raw[LEADING.match(raw).end() :]).rstrip(ENDS)
        elif kind == b"unknown":
            is_quote = QUOTE.match(spelling)
            spelling = spelling.rstrip(ENDS) if is_quote else spelling.strip(b" \t\n\v\f\r")
            if spelling[:2] == b"/*":
                self.add_comment(None, raw, line, column)
            # An empty character constant is no item of C11, and the compilers go on behind it.
            self.is_read_otherwise |= bool(is_quote) and spelling.endswith(b"''")
        elif kind in (b"raw_identifier", b"numeric_constant"):
            self.is_read_otherwise |= has_other_word_characters(spelling)
        if not spelling:
            self.is_begun |= b"StartOfLine" in flags
        else:
            begins = b"StartOfLine" in flags or self.is_begun or not self.found
            self.is_begun = False
            self.found.append((kind, spelling, kind == b"hash" and begins))
            self.look(kind, begins)

    def look(self, kind, begins):
        """Sees a `#` in a text, and a brace inside parentheses or brackets, which may keep the bytes behind it."""
        if begins:
            self.in_directive, self.waiting_here = kind == b"hash", []
        elif kind == b"hash" and not self.in_directive:
            self.may_change = True
        # What a directive closes waits on in the text around it.
        waiting = self.waiting_here if self.in_directive else self.waiting
        if kind in (b"l_paren", b"l_square"):
            waiting.append(kind)
        elif kind in (b"r_paren", b"r_square") and waiting and waiting[-1][2:] == kind[2:]:
            waiting.pop()
        elif kind == b"l_brace" and waiting:
            self.may_change = True

    def open_comment(self):
        """Where a comment begins that nothing ends."""
        return self.comments[-1][1] if self.comments and self.comments[-1][0] is None else None

    def regions(self):
        """The places in which formatting is off, up to the comment that switches it on."""
        begun = None
        for spelling, at, end in self.comments:
            inner = (spelling or b"")[2:].removesuffix(b"*/" if (spelling or b"")[:2] == b"/*" else b"").strip()
            if begun is None and OFF.fullmatch(inner):
                begun = end
            elif begun is not None and ON.fullmatch(inner):
                yield begun, at
                begun = None
        if begun is not None:
            yield begun, len(self.text)

    def moves(self, once):
        """Whether a comment that stood inside a row begins one in the output, or one that ended a row does no more."""
        for _, at, end in self.comments:
            count = len(bare(self.text[:at]))
            new = place(once, count, False)
            new_end = place(once, count + len(bare(self.text[at:end])), True)
            heads = (behind_row(text[:it]) for text, it in ((self.text, at), (once, new)))
            tails = (before_row(text[it:]) for text, it in ((self.text, end), (once, new_end)))
            began, begins = (not head.strip() for head in heads)
            ended, ends = (not tail.strip() for tail in tails)
            if (begins and not began) or (ended and not ends):
                return True
        return False


def cut(folder, texts):
    """The tokens of each text, by its name; none of one that clang doesn't read."""
    for name, text in texts.items():
        with open(os.path.join(folder, name), "wb") as file:
            file.write(text)
    read = [name for name, text in texts.items() if not MARKED.match(text)]
    words = ["clang", "-cc1", "-std=c11", "-ftrigraphs", "-dump-raw-tokens", *read]
    ran = subprocess.run(words, cwd=folder, capture_output=True)
    found = {name: Tokens(text) for name, text in texts.items()}
    for kind, spelling, flags, raw, name, line, column in TOKEN.findall(ran.stderr):
        found[name.decode()].add(kind, spelling, flags, raw, line, column)
    return found


def preprocessed(text):
    """What gcc makes of a text, its includes left as they are, and whether it finds fault with it."""
    words = ["gcc", "-E", "-P", "-std=c11", "-x", "c", "-w", "-D__LINE__=0", "-"]
    ran = subprocess.run(words, input=INCLUDE.sub(rb"\1pragma include", text), capture_output=True, timeout=SECONDS)
    if ran.returncode and (b"_Pragma" in text or b"__has_" in text):
        return ran.returncode, None  # Behind such a fault gcc goes on in more than one way.
    return ran.returncode, [re.sub(rb"[\s\0]+", b"", word) for word in WORD.findall(ran.stdout)]
