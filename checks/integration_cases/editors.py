"""Editors: vim, Neovim, emacs, Kakoune, and the lines that others run in a shell."""
import os
import shutil

from parts import TOP, holds, part, same

BUFFER = "int f(void)\n{\nint  one;\nint  two;\nreturn  one;\n}\nint  zed;\n"
ONE_LINE = BUFFER.replace("int  one;", "  int one;")


def vi(folder, program, *commands, name="a.c", **more):
    words = [word for command in commands for word in ("-c", command)]
    script = os.path.join(TOP, "integrations", "vim", "clang_format.vim")
    no_config = ["-Nu", "NONE"] if program == "vim" else ["-u", "NONE"]
    folder.run(program, *no_config, "-i", "NONE", "-n", "-Es", "-S", script, *words, "-c", "wq", name, **more)


def in_vi(folder, program):
    cursor = "call writefile([expand('<cword>'), line('.'), col('.')], 'cursor')"
    folder.put("a.c", BUFFER)
    vi(folder, program, "call cursor(7, 6)", "ClangFormat", cursor)
    whole = folder.read("a.c")
    same(whole, folder.run("clang_format", data=BUFFER)[0])
    row = [number for number, line in enumerate(whole.split("\n"), 1) if "zed" in line][0]
    same(folder.read("cursor"), "zed\n%d\n5\n" % row)
    folder.put("a.c", BUFFER)
    vi(folder, program, "call cursor(4, 6)", "3ClangFormat", cursor)
    same(folder.read("a.c"), ONE_LINE)
    same(folder.read("cursor"), "two\n4\n6\n")
    folder.put("a.c", BUFFER)
    vi(folder, program, "setlocal formatexpr=ClangFormatExpr()", "normal 3GgqG")
    holds(folder.read("a.c").startswith("int f(void)\n") and "int zed;\n" in folder.read("a.c"), folder.read("a.c"))
    folder.put("a.c", "int  x;\n")
    vi(folder, program, "setlocal equalprg=clang_format", "normal gg=G")
    same(folder.read("a.c"), "int x;\n")
    folder.put("a.c", "int  x;\n")
    vi(folder, program, "setlocal formatprg=clang_format", "normal gggqG")
    same(folder.read("a.c"), "int x;\n")


def in_vi_hard(folder, program):
    folder.put("a.c", "int  x;\n/* open\n")
    vi(folder, program, "autocmd BufWritePre *.c ClangFormat", "call setline(1, 'int  y;')", status=None)
    same(folder.read("a.c"), "int  y;\n/* open\n")
    folder.put("a.c", "int  x;\r\nint  y;\r\n")
    vi(folder, program, "ClangFormat")
    same(folder.read("a.c"), "int x;\r\nint y;\r\n")
    folder.put("it's a dir/.clang-format", "LineEnding: CRLF\n")
    folder.put("it's a dir/sub/a 'b\".c", "int  x;\n")
    vi(folder, program, "ClangFormat", name="it's a dir/sub/a 'b\".c")
    same(folder.read("it's a dir/sub/a 'b\".c"), "int x;\r\n")
    folder.put("a.c", "\n\n\nint  x;\n\n\n")
    vi(folder, program, "ClangFormat", "normal u")
    same(folder.read("a.c"), "\n\n\nint  x;\n\n\n")
    folder.put("a.c", "char *é = \"ü\"  ;\nint  x;\n")
    vi(folder, program, "set encoding=utf-8", "call search('x;')", "ClangFormat", "normal ix")
    same(folder.read("a.c"), "char *é = \"ü\";\nint xx;\n")


@part("vim")
def vim(folder):
    in_vi(folder, "vim")


@part("vim")
def vim_hard(folder):
    in_vi_hard(folder, "vim")


@part("nvim")
def neovim(folder):
    in_vi(folder, "nvim")


@part("nvim")
def neovim_hard(folder):
    in_vi_hard(folder, "nvim")


def lisp(folder, name, *forms, **more):
    script = os.path.join(TOP, "integrations", "emacs", "clang_format.el")
    form = '(progn (find-file "%s") (c-mode) %s)' % (name, " ".join(forms))
    return folder.run("emacs", "-Q", "--batch", "-l", script, "--eval", form, **more)[1]


@part("emacs")
def emacs(folder):
    cursor = '(princ (format "%s %s" (thing-at-point \'symbol) (looking-at "ed;")) #\'external-debugging-output)'
    folder.put("a.c", BUFFER)
    said = lisp(folder, "a.c", "(clang_format-on-save-mode)", '(search-forward "  z")', "(set-buffer-modified-p t)",
                "(save-buffer)", cursor)
    same(folder.read("a.c"), folder.run("clang_format", data=BUFFER)[0])
    holds("zed t" in said, said)
    folder.put("a.c", BUFFER)
    lisp(folder, "a.c", "(forward-line 2)", "(clang_format-region (point) (line-beginning-position 2))",
         "(save-buffer)")
    same(folder.read("a.c"), ONE_LINE)
    folder.put("a.c", BUFFER)
    lisp(folder, "a.c", "(narrow-to-region 1 5)", "(clang_format-buffer)", "(clang_format-on-save-mode)",
         "(clang_format-on-save-mode -1)", "(save-buffer)")
    same(folder.read("a.c"), folder.run("clang_format", data=BUFFER)[0])


@part("emacs")
def emacs_hard(folder):
    save = ("(clang_format-on-save-mode)", "(set-buffer-modified-p t)", "(save-buffer)")
    folder.put("a.c", "int  x;\n/* open\n")
    holds("comment without an end" in lisp(folder, "a.c", '(insert "int  y;\n")', *save), "the fault isn't told")
    same(folder.read("a.c"), "int  y;\nint  x;\n/* open\n")
    holds("nowhere" in lisp(folder, "a.c", '(setq clang_format-program "nowhere")', *save), "the fault isn't told")
    folder.put("a.c", "int  x;\r\nint  y;\r\n")
    lisp(folder, "a.c", *save)
    same(folder.read("a.c"), "int x;\r\nint y;\r\n")
    folder.put("it's a dir/.clang-format", "LineEnding: CRLF\n")
    folder.put("it's a dir/sub/a b.c", "int  x;\n")
    lisp(folder, "it's a dir/sub/a b.c", *save)
    same(folder.read("it's a dir/sub/a b.c"), "int x;\r\n")
    for text in (b"char *\xc3\xa9 = \"\xc3\xbc\"  ;\nint x;\n", b"char *\xe9 = \"\xff\"  ;\nint x;\n"):
        folder.put("a.c", text)
        lisp(folder, "a.c", *save)
        same(folder.read("a.c"), text.replace(b"  ;", b";").decode("utf-8", "surrogateescape"))
    shutil.copy(os.path.join(TOP, "integrations", "emacs", "clang_format.el"), folder.at("clang_format.el"))
    folder.run("emacs", "-Q", "--batch", "--eval", "(setq byte-compile-error-on-warn t)", "-f", "batch-byte-compile",
               "clang_format.el")


@part("kak")
def kakoune(folder):
    folder.put(".clang-format", "IndentWidth: 8\n")
    folder.put("sub/a.c", BUFFER)
    script = os.path.join(TOP, "integrations", "kakoune", "clang_format.kak")
    folder.run("kak", "-ui", "dummy", "-n", "-e", "source /usr/share/kak/rc/tools/format.kak; source '%s'; edit a.c; "
               "set-option window filetype c; format; write; quit" % script, folder="sub")
    holds("\n        int one;\n" in folder.read("sub/a.c"), folder.read("sub/a.c"))


def quoted(name):
    """What a page of settings gives a shell: between the first and the last apostrophe of that line."""
    with open(os.path.join(TOP, "integrations", name)) as file:
        line = [line for line in file if "cd ..;" in line][0]
    return line.split("'", 1)[1].rsplit("'", 1)[0]


@part("sh")
def shell_lines_of_editors(folder):
    folder.put(".clang-format", "LineEnding: CRLF\n")
    folder.put("a/b/x.c", "")
    for name in ("kate/clang_format.ini", "helix/languages.toml"):
        same(folder.run("sh", "-c", quoted(name), data="int  x;\n", folder="a/b")[0], "int x;\r\n")
        same(folder.run("sh", "-c", quoted(name), data="int  x;\n", folder="/")[0], "int x;\n")
