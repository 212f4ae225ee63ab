"""Texts that nobody would write, for bench/fuzz: fragments of C and bytes, mixed in several ways by one generator of
chance, so that a seed gives the same texts again."""
import os

TOP = os.path.dirname(os.path.dirname(os.path.abspath(__file__)))

PUNCTUATORS = (
    "[ ] ( ) { } . -> ++ -- & * + - ~ ! / % << >> < > <= >= == != ^ | && || ? : ; ... = *= /= %= += -= <<= >>= &= ^= "
    "|= , # ## <: :> <% %> %: %:%: :: @ ` $ \\ ??= ??( ??/ ??) ??' ??< ??! ??> ??-"
).split(" ")
WORDS = (
    "auto break case char const continue default do double else enum extern float for goto if inline int long "
    "register restrict return short signed sizeof static struct switch typedef union unsigned void volatile while "
    "_Alignas _Atomic _Bool _Generic _Noreturn _Static_assert asm __asm__ __attribute__ __extension__ typeof goto "
    "L u8 U R NULL a b c x y i foo bar_t uint8_t MACRO A B long_name_of_a_thing another_long_name_of_some_thing "
    "defined include define pragma once error line elif endif ifdef ifndef undef import include_next warning "
    "__has_include __VA_ARGS__ _Pragma"
).split(" ")
LITERALS = (
    "0 1 2u 0x1f 07 1. .5 1e+5 0xe+1 1.2.3 0x1p-3 1e 'a' '\\n' L'x' '\\'' 'ab' \"s\" \"\" L\"w\" u8\"x\" \"a\\\"b\" "
    "\"a\\\\\" \"??/\"\" \"%s\\n\" R\"(x)\" <a.h> \"a.h\" ' \" '\\ \"\\ \"open 'open /**/ /*c*/ //c // /* */ */ 1'000 "
    "0x_ 1_a .. ->* <::> %:% ??/ ???/ \\"
).split(" ")
COMMENTS = [
    "// clang-format off\n", "// clang-format on\n", "/* clang-format off */", "/* clang-format on */",
    "// clang-format off: why\n", "/*clang-format off: x*/", "// clang-format offended\n",
    "/* clang-\\\nformat off */", "// trailing\n", "/* of\n   two rows */", "/* one */", "/** doc\n * more\n */\n",
    "// spliced \\\n goes on\n", "// ends ??/\n on\n", "/* tab\there */", "//\n", "/* \xe9 \u4e00 */", "// x\r\n",
]
DIRECTIVES = [
    "#if A\n", "#ifdef A\n", "#ifndef B\n", "#elif C\n", "#else\n", "#endif\n", "#if 0\n", "#elif 0\n",
    "#endif // x\n", "#if defined(A) && B > 2 || !C\n", "#if __has_include(<a.h>)\n", "#  define X 1\n",
    "#define F(a, b) a ## b\n", "#define G(x, ...) f(#x, __VA_ARGS__)\n", "#define H do { \\\n  a; \\\n} while (0)\n",
    "#define EMPTY\n", "#define P (x)\n", "#define P\\\n(x)\n", "#define N -1\n", "#define S \\ \n more\n",
    "#undef X\n", "#include <a.h>\n", "#include \"b.h\" // why\n", "#include MACRO\n", "#pragma once\n",
    "#pragma  omp   for\n", "#error don't  do\n", "#line 7 \"x.c\"\n", "#\n", "# 33 \"x.c\"\n", "%:define D 1\n",
    "??=define T 1\n", "/* c */ #define C 1\n", "#define /* c */ M /* d */ x /* e */\n", "#if A // c\n",
    "#warning  w\n", "#ident \"x\"\n", "#if A \\\n && B\n", "#de\\\nfine Q 2\n",
    "#define L(a,b,c) \\\n    long_call(a,b,c); \\\n    other_call(a+b+c,a-b-c,a*b*c,a/b/c,12345678)\n",
]
STATEMENTS = [
    "int a;", "int  f(void){return 0;}", "if(a)b();else c();", "if(a){b();}else if(c){d();}else{e();}", "for(;;)x++;",
    "for(int i=0;i<n;++i){a[i]=b[i];}", "while(x)y();", "do{a();}while(b);", "do a(); while(b);", "switch(x){",
    "case 1:", "case A...B:", "default:", "case 1:{a();break;}", "break;", "label:", "goto label;", "return;",
    "return (a);", "{", "}", "};", ";", "struct s{int a:3;char*b;}v;", "struct s;", "enum e{A,B=2,C,};", "enum{A};",
    "union u{int i;float f;};", "typedef int(*fn)(int,char*);", "int a[]={1,2,3};", "struct s v={.a=1,.b={[2]=3}};",
    "int(*p)[3]=&q;", "x=( {int y=1;y;} );", "f((struct s){1,2});",
    "asm volatile(\"nop\":\"=r\"(a):\"r\"(b):\"memory\");", "__asm__ goto(\"x\"::::l);",
    "__attribute__((packed,aligned(4)))", "extern \"C\" {", "a?b:c?d:e;", "a=b?:c;",
    "int f(a,b)int a;char b;{return a;}", "static inline const char*const f(const char*restrict s,int n,...);",
    "sizeof(int)*x;", "(void)f(a,b);", "(type)*p;", "(a)-b;", "*p++=-*--q;", "a&&&b;", "a&b&&c|d||!e;", "x<<=1;",
    "call(first_argument_of_this_call,second_argument_of_this_call,third_argument_of_this_call,4);",
    "value=some_long_name_of_a_value+another_long_name_of_a_value*a_third_long_name_of_a_value-the_last_one_of_all;",
    "if(first_long_condition_of_all&&second_long_condition_of_all||third_long_condition_of_all&&the_last){x();}",
    "char*s=\"a rather long string that takes much of a row\"\"and another one that takes the rest of it\" \"x\";",
    "unsigned char t[]={0x00,0x01,0x02,0x03,0x04,0x05,0x06,0x07,0x08,0x09,0x0a,0x0b,0x0c,0x0d,0x0e,0x0f,0x10,0x11};",
    "MACRO(a,b)", "MACRO", "LIST_FOR_EACH(x,y){z();}", "_Static_assert(sizeof(a)==4,\"x\");",
    "_Generic(a,int:1,default:2);",
]
HEADS = [
    "int f(void)\n{\n", "static struct s *f(struct s *a, int b) // c\n{\n", "int f(a) int a; {\n",
    "void __attribute__((noinline)) f(int a) {\n", "#if A\nint f(int a)\n#else\nint f(void)\n#endif\n{\n",
    "extern \"C\" {\n", "struct s {\n", "typedef struct __attribute__((packed)) {\n", "enum e {\n",
    "static const struct s v = {\n",
]
GROUPS = [
    "{\n", "if (a) {\n", "else {\n", "} else {\n", "for (;;) {\n", "do {\n", "switch (a) {\n", "case 1: {\n",
    "MACRO(a) {\n",
]
ENDS = ["}\n", "}\n", "} // end\n", "} while (a);\n", "};\n", "} a;\n"]
WHITE = [" "] * 12 + ["\n"] * 6 + [""] * 8
WHITE += ["  ", "\t", "\n\n", "\n\n\n\n", "\r\n", "\\\n", "\\\r\n", " \\\n ", "??/\n", "\v", "\f", "\r", " \t "]
WHITE += ["\\ \n", "      "]
ODD = [
    b"\x00", b"\xff", b"\xfe\xff", b"\xc3\xa9", b"\xe4\xb8\x80", b"\xc3", b"\xf0\x9f\x98\x80", b"\xef\xbb\xbf",
    b"\x7f", b"\x1b[0m", b"\xc2\xa0", b"\xe2\x80\xa8", b"\xcc\x81", b"\\u00e9", b"\\u", b"\x1a",
]
ALPHABETS = [
    b"/*\n \\", b"/*'\"\\\n ?", b"(){}[];,\n a", b"#\n d\\/", b"?:;{}ac \n", b"<>%:#=\n a", b"+-&|<>=!a \n",
    b".0e+-xp1'\"L \n", b"#if \n1#endl", b"\r\n \\/*a", b"??/=()'<!>-\n a", bytes(range(256)), b" \t\n\v\f\ra;",
    b"{}if(a)else;\n ",
]
def keys_of_styles():
    """Each key of a style with some of its values, as the table of docs/PROFILE.md has them."""
    with open(os.path.join(TOP, "docs", "PROFILE.md"), encoding="utf-8") as file:
        table = file.read().split("| Key | Values |")[1].split("\n\n")[0]
    found = {}
    for row in table.split("\n")[2:]:
        key, values = (cell.strip() for cell in row.split("|")[1:3])
        first, to, last = values.partition(" to ")
        found[key] = [first, str(int(first) + 1), str(min(int(last), 60)), last] if to else values.split(", ")
    return found


def encoded(pieces):
    return [piece.encode("utf-8") for piece in pieces]


def sources():
    folder = os.path.join(TOP, "examples")
    for name in sorted(os.listdir(folder)):
        with open(os.path.join(folder, name), "rb") as file:
            yield file.read()


class Texts:
    """Makes texts by a generator of chance."""

    def __init__(self, chance):
        self.chance = chance
        self.sources = list(sources())
        self.keys = keys_of_styles()
        self.tokens = encoded(PUNCTUATORS * 2 + WORDS * 2 + LITERALS)
        self.rows = encoded(STATEMENTS * 3 + DIRECTIVES * 2 + COMMENTS)
        self.conditionals = encoded(DIRECTIVES[:8] * 4 + STATEMENTS + COMMENTS[:2])
        self.white = encoded(WHITE)
        self.pieces = self.tokens + self.rows + self.white + ODD
        self.ways = [self.of_tokens, self.of_conditionals, self.of_bytes, self.of_brackets]
        self.ways += [self.of_rows, self.of_a_source, self.of_functions] * 2

    def between(self, pieces, white):
        chosen = self.chance.choices(white, k=len(pieces))
        return b"".join(part for pair in zip(pieces, chosen) for part in pair)

    def of_tokens(self, size):
        pieces = self.chance.choices(self.tokens, k=1 + size // 4)
        for _ in range(size // 60):
            pieces[self.chance.randrange(len(pieces))] = self.chance.choice(self.rows)
        return self.between(pieces, self.white)

    def of_rows(self, size):
        white = self.chance.choice((self.white, [b"\n"], [b"\n", b"\n", b" ", b"\r\n"], [b""]))
        return self.between(self.chance.choices(self.rows, k=1 + size // 20), white)

    def of_conditionals(self, size):
        return self.between(self.chance.choices(self.conditionals, k=1 + size // 16), [b"\n"])

    def of_functions(self, size):
        """Functions, structures and lists, with groups and conditionals in one another, most of them closed."""
        pieces, waiting = [], []
        for _ in range(1 + size // 16):
            turn = self.chance.random()
            if not waiting:
                opener, closer = self.chance.choice(HEADS), self.chance.choice(ENDS)
            elif turn < 0.12:
                opener, closer = self.chance.choice(DIRECTIVES[:3]), "#endif\n"
            elif turn < 0.2:
                opener, closer = self.chance.choice(GROUPS), self.chance.choice(ENDS)
            elif turn < 0.35:
                pieces.append(waiting.pop())
                continue
            elif turn < 0.5:
                pieces.append(self.chance.choice(("#else\n", "#elif B\n", *DIRECTIVES)))
                continue
            else:
                row = self.chance.choice(STATEMENTS if turn < 0.9 else COMMENTS)
                pieces.append(row + self.chance.choice(("\n", "\n", "\n\n", " ", " // c\n", " /* c */\n")))
                continue
            pieces.append(opener)
            waiting.append(closer)
        if self.chance.random() < 0.9:
            pieces += reversed(waiting)
        return "".join(pieces).encode("utf-8")

    def of_a_source(self, size):
        """A part of a source, with faults."""
        source = self.chance.choice(self.sources)
        begin = self.chance.randrange(len(source))
        text = bytearray(source[begin : begin + size])
        for _ in range(self.chance.randrange(1, 4 + size // 200)):
            at = self.chance.randrange(len(text) + 1)
            fault = self.chance.randrange(4)
            if fault == 0:
                del text[at : at + self.chance.randrange(1, 12)]
            elif fault == 1:
                text[at:at] = self.chance.choice(self.pieces)
            elif fault == 2:
                other = self.chance.randrange(len(text) + 1)
                text[at:at] = text[other : other + self.chance.randrange(1, 80)]
            elif at < len(text):
                text[at] = self.chance.randrange(256)
        return bytes(text)

    def of_bytes(self, size):
        alphabet = self.chance.choice(ALPHABETS)
        return bytes(self.chance.choices(alphabet, k=size))

    def of_brackets(self, size):
        """Brackets, mostly closed as they were opened, with some tokens between."""
        pieces, waiting = [], []
        for _ in range(1 + size // 3):
            turn = self.chance.random()
            if turn < 0.4:
                opener = self.chance.choice(("(", "[", "{", "{", "({"))
                pieces.append(opener.encode())
                waiting.append({"(": b")", "[": b"]", "{": b"}", "({": b"})"}[opener])
            elif turn < 0.75 and waiting:
                pieces.append(waiting.pop())
            else:
                pieces.append(self.chance.choice(self.tokens))
        return self.between(pieces, self.white)

    def text(self):
        """A text of some way; most are short, and few have a comment without an end."""
        size = int(2 ** self.chance.uniform(0, 13))
        made = self.chance.choice(self.ways)(size)
        if made.rfind(b"/*") > made.rfind(b"*/") and self.chance.random() < 0.9:
            made += b" */"
        if self.chance.random() < 0.1:
            made = made.replace(b"\n", b"\r\n")
        return made

    def configuration(self):
        """A named style with some keys set to some of their values."""
        rows = ["BasedOnStyle: " + self.chance.choice(("LLVM", "Google", "WebKit", "Mozilla", "Microsoft"))]
        outer_before = ""
        for key, values in self.keys.items():
            if self.chance.random() < 0.3:
                outer, _, inner = key.rpartition(".")
                if outer and outer != outer_before:
                    rows.append(f"{outer}:")
                outer_before = outer
                rows.append(f"{'  ' if outer else ''}{inner}: {self.chance.choice(values)}")
        return ("\n".join(rows) + "\n").encode()
