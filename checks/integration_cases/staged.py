"""git-clang-format-staged: what is staged, and what isn't."""
import os
import shutil
import stat

from parts import Folder, holds, part, same


@part("git")
def staged_file_without_a_commit(repository):
    repository.check(status=0)
    repository.format()
    repository.stage("a.c", "int  x;\nint  y;\n")
    repository.put("other.c", "int  z;\n")
    same(repository.check(), "a.c:1-2: formatting would change this\n")
    same(repository.format()[0], "a.c: formatted\n")
    repository.both("a.c", "int x;\nint y;\n")
    same(repository.read("other.c"), "int  z;\n")
    same(repository.git("status", "--porcelain"), "A  a.c\n?? other.c\n")
    repository.check(status=0)


@part("git")
def only_staged_lines(repository):
    repository.commit(a="int  old;\nint x;\nint  older;\n", b="int  b;\n")
    repository.stage("a.c", "int  old;\nint x;\nint  new;\nint  older;\n")
    repository.put("b.c", "int  b;\nint  c;\n")
    same(repository.check(), "a.c:3: formatting would change this\n")
    repository.format()
    repository.both("a.c", "int  old;\nint x;\nint new;\nint  older;\n")
    same(repository.read("b.c"), "int  b;\nint  c;\n")
    repository.format("--whole-files")
    repository.both("a.c", "int old;\nint x;\nint new;\nint older;\n")


@part("git")
def lines_staged_in_part(repository):
    repository.commit(a="int a;\nint b;\nint c;\n")
    repository.stage("a.c", "int a;\nint  new;\nint b;\nint c;\n")
    repository.put("a.c", "int a;\nint  new;\nint b;\nint   c_unstaged;\nint   more;\n")
    same(repository.format()[0], "a.c: formatted\n")
    same(repository.index("a.c"), "int a;\nint new;\nint b;\nint c;\n")
    same(repository.read("a.c"), "int a;\nint new;\nint b;\nint   c_unstaged;\nint   more;\n")


@part("git")
def unstaged_lines_beside_staged_ones(repository):
    repository.commit(a="int a;\n")
    repository.stage("a.c", "int a;\nint  one;\nint  two;\n")
    repository.put("a.c", "int   a;\nint  one;\nint  two;\nint   three;\n")
    same(repository.format()[0], "a.c: formatted\n")
    same(repository.index("a.c"), "int a;\nint one;\nint two;\n")
    same(repository.read("a.c"), "int   a;\nint one;\nint two;\nint   three;\n")


@part("git")
def unstaged_change_of_a_staged_line(repository):
    repository.commit(a="int a;\n")
    repository.stage("a.c", "int a;\nint  one;\nint  two;\n")
    repository.put("a.c", "int a;\nint  one;\nint   other;\n")
    holds("unstaged changes stay" in repository.format()[0], "nothing is said of the unstaged line")
    same(repository.index("a.c"), "int a;\nint one;\nint two;\n")
    same(repository.read("a.c"), "int a;\nint one;\nint   other;\n")


@part("git")
def unstaged_text_that_is_refused(repository):
    repository.stage("a.c", "int  a;\nint b;\n")
    repository.put("a.c", "int  a;\nint b;\n/* open\n")
    holds("work tree file stays" in repository.format()[0], "nothing is said of the work tree")
    same(repository.index("a.c"), "int a;\nint b;\n")
    same(repository.read("a.c"), "int  a;\nint b;\n/* open\n")


@part("git")
def equal_lines_stay_apart(repository):
    """The unstaged text repeats what is staged, so lines alone don't tell which is which."""
    block = "void f(void) {\n  g( );\n}\n"
    repository.stage("a.c", block)
    repository.put("a.c", "int  u;\n" + block + block.replace("f", "h"))
    solid = "".join(repository.read("a.c").split())
    repository.format()
    same("".join(repository.read("a.c").split()), solid)
    holds("int  u;\n" in repository.read("a.c"), "an unstaged line changed")
    holds("g( );" not in repository.index("a.c"), "the index isn't formatted")


@part("git")
def paths_of_all_sorts(repository):
    names = ["a b.c", "q\"uote.c", "apo'strophe.c", "new\nline.c", "tab\t.c", "ünï/ço d€.c", b"latin\xe9.c",
             "-i.c", ":x.c", "*.c", "[a].c", "back\\slash.c", "$HOME `x`.c", " .c", "deep/er/x.h"]
    for name in names:
        repository.stage(name, "int  x;\n")
    rows = repository.check()
    same(rows.count(": formatting would change this\n"), len(names))
    holds('"new\\nline.c":1: ' in rows and "a b.c:1: " in rows and '"q\\"uote.c":1: ' in rows, rows)
    repository.format()
    for name in names:
        repository.both(name, "int x;\n")
    same(repository.git("diff", "--name-only"), "")


@part("git")
def renames_and_removals(repository):
    old = "".join("int  a%d;\n" % number for number in range(20))
    repository.commit(a=old, gone="int  x;\n", lost="int  x;\n")
    repository.git("mv", "a.c", "b.c")
    repository.stage("b.c", old + "int  new;\n")
    repository.git("rm", "-q", "gone.c")
    repository.stage("lost.c", "int  x;\nint  y;\n")
    os.unlink(repository.at("lost.c"))
    same(repository.check("b.c"), "b.c:21: formatting would change this\n")
    repository.format()
    repository.both("b.c", old + "int new;\n")
    same(repository.index("lost.c"), "int  x;\nint y;\n")
    holds(not os.path.exists(repository.at("lost.c")), "a removed file is back")
    same(repository.git("status", "--porcelain"), "R  a.c -> b.c\nD  gone.c\nMD lost.c\n")


@part("git")
def links_and_modules(repository):
    outside = Folder(os.fsdecode(repository.path) + "-outside", repository.environ)
    outside.put("x.c", "int  x;\n")
    repository.commit(was_link="")
    repository.git("rm", "-q", "was_link.c")
    os.symlink(outside.at("x.c"), repository.at("link.c"))
    os.symlink("nowhere", repository.at("int  x.c"))
    repository.git("add", "-A")
    repository.git("update-index", "--add", "--cacheinfo", "160000,%s,module.c" % ("1" * 40))
    repository.stage("folder/x.c", "int  x;\n")
    repository.stage("real.c", "int  x;\n")
    shutil.rmtree(repository.at("folder"))
    os.symlink(outside.path, repository.at("folder"))
    os.unlink(repository.at("real.c"))
    os.symlink(outside.at("x.c"), repository.at("real.c"))
    same(repository.check().count("formatting"), 2)
    repository.format()
    same(repository.index("folder/x.c") + repository.index("real.c"), "int x;\n" * 2)
    same(outside.read("x.c"), "int  x;\n")
    holds(os.path.islink(repository.at("real.c")) and os.path.islink(repository.at("folder")), "a link was replaced")
    same(repository.git("ls-files", "-s", "module.c")[:47], "160000 " + "1" * 40)


@part("git")
def modes_are_kept(repository):
    repository.put("a.c", "int  x;\n")
    os.chmod(repository.at("a.c"), 0o751)
    repository.git("add", "a.c")
    repository.stage("b.c", "int  x;\n")
    os.chmod(repository.at("b.c"), 0o640)
    repository.format()
    same([row[:6] for row in repository.git("ls-files", "-s").splitlines()], ["100755", "100644"])
    same([stat.S_IMODE(os.stat(repository.at(name)).st_mode) for name in ("a.c", "b.c")], [0o751, 0o640])
    repository.both("a.c", "int x;\n")


@part("git")
def style_of_the_top(repository):
    repository.put(".clang-format", "LineEnding: CRLF\n")
    repository.stage("sub/a.c", "int  x;\n")
    repository.stage("b.c", "int  x;\n")
    same(repository.format("a.c", folder="sub")[0], "sub/a.c: formatted\n")
    repository.both("sub/a.c", "int x;\r\n")
    same(repository.index("b.c"), "int  x;\n")
    repository.format("--style", "LLVM", folder="sub")
    repository.both("b.c", "int x;\n")
    repository.put(".clang-format", "IndentWidth: none\n")
    repository.stage("b.c", "int  y;\n")
    holds(".clang-format:1: bad value" in repository.format(status=2)[1], "the configuration's fault isn't told")
    repository.both("b.c", "int  y;\n")


@part("git")
def notes_of_the_program(repository):
    repository.put(".clang-format", "Unheard: of\n")
    repository.stage("a b.c", "int x = f(%s, %s);\n" % ("a" * 40, "b" * 40))
    same(repository.format("--states", "1", "--check", status=None)[1], "a b.c:1: run 0: not searched within 1 cells\n")


@part("git")
def a_check_writes_nothing(repository):
    repository.stage("a.c", "int  x;\n")
    repository.put("a.c", "int  x;\nint  y;\n")
    seen = [[(folder, sorted(names)) for folder, _, names in sorted(os.walk(repository.at(".git")))],
            repository.read(".git/index")]
    repository.check()
    same([[(folder, sorted(names)) for folder, _, names in sorted(os.walk(repository.at(".git")))],
          repository.read(".git/index")], seen)
    same(repository.read("a.c"), "int  x;\nint  y;\n")


@part("git")
def a_merge_tells_of_its_own_lines(repository):
    base = "int a;\n" + "int m;\n" * 9
    repository.commit(a=base)
    repository.git("checkout", "-qb", "side")
    repository.commit(a=base + "int  theirs;\n", b="int  b;\n")
    repository.git("checkout", "-q", "-")
    repository.commit(a="int  mine;\n" + base)
    repository.git("merge", "-q", "--no-commit", "side")
    repository.check(status=0)
    repository.stage("a.c", repository.read("a.c").replace("int a;", "int  both;"))
    same(repository.check(), "a.c:2: formatting would change this\n")


@part("git")
def a_refused_file_stops_no_other(repository):
    repository.stage("a.c", "int  x;\n/* open\n")
    repository.stage("b.c", "int  x;\n")
    out, err = repository.format(status=2)
    same(out, "b.c: formatted\n")
    same(err, "a.c: left as it is: comment without an end at byte 8\n")
    repository.both("a.c", "int  x;\n/* open\n")
    repository.check(status=2)


@part("git")
def programs_that_are_missing(repository):
    repository.stage("a.c", "int  x;\n")
    holds("no such program" in repository.format(status=2, CLANG_FORMAT="nowhere")[1], "nothing is said")
    repository.git("config", "clangFormatStaged.program", "/nowhere/clang_format")
    holds("no such program" in repository.format(status=2)[1], "nothing is said")
    repository.format(CLANG_FORMAT="clang_format")
    repository.both("a.c", "int x;\n")


@part("git")
def line_ends_that_git_converts(repository):
    repository.git("config", "core.autocrlf", "true")
    repository.stage("a.c", "int  x;\r\nint  y;\r\n")
    repository.stage("b.c", "int  x;\r\n")
    repository.put("b.c", "int  x;\r\nint  unstaged;\r\n")
    repository.format()
    same(repository.index("a.c") + repository.index("b.c"), "int x;\nint y;\nint x;\n")
    same(repository.read("a.c"), "int x;\r\nint y;\r\n")
    same(repository.read("b.c"), "int x;\r\nint  unstaged;\r\n")
    same(repository.git("diff", "--name-only"), "b.c\n")


@part("git")
def entries_that_git_is_told_not_to_look_at(repository):
    repository.stage("a.c", "int  x;\n")
    repository.stage("b.c", "int  x;\n")
    repository.stage("new.c", "int  x;\n")
    repository.git("rm", "-q", "--cached", "new.c")
    repository.git("add", "-N", "new.c")
    repository.git("update-index", "--assume-unchanged", "a.c")
    repository.git("update-index", "--skip-worktree", "b.c")
    repository.format(status=2)
    same(repository.git("ls-files", "-v"), "h a.c\nS b.c\nH new.c\n")
    same(repository.read("new.c"), "int  x;\n")


@part("git")
def ends_of_texts(repository):
    repository.stage("a.c", "int  x;")
    repository.stage("b.c", "")
    repository.stage("c.c", "\n\n")
    repository.stage("d.c", b"int  x;\0\xff\n")
    repository.stage("e.c", "int  x;\r\nint  y;\r\n")
    repository.format()
    same("".join(repository.index("a.c").split()), "intx;")
    for name in ("a.c", "b.c", "c.c", "d.c", "e.c"):
        same(repository.read(name), repository.index(name))
    same(repository.read("e.c"), "int x;\r\nint y;\r\n")
    holds("int x;" in repository.read("d.c"), "a text with a NUL isn't formatted")
    repository.commit()
    repository.stage("d.c", repository.read("d.c").encode("utf-8", "surrogateescape") + b"int  y;\n")
    repository.format()
    holds("int y;\n" in repository.index("d.c"), "a line behind a NUL isn't formatted")


@part("git")
def more_ranges_than_a_call_takes(repository):
    old = ["int  a%d;\n" % number for number in range(5000)]
    repository.commit(a="".join(old))
    repository.stage("a.c", "".join(row + "int  b;\n" for row in old))
    repository.format()
    repository.both("a.c", "".join(row + "int b;\n" for row in old))


@part("git")
def lines_since_a_commit(repository):
    repository.commit(a="int  a;\n")
    repository.commit(a="int  a;\nint  b;\n")
    repository.check(status=0)
    same(repository.check("--since", "HEAD~1"), "a.c:2: formatting would change this\n")
    repository.check("--since", "nowhere", status=2)
    repository.format("--since", "HEAD~1")
    repository.both("a.c", "int  a;\nint b;\n")


@part("git")
def paths_that_are_chosen(repository):
    for name in ("a.c", "third_party/b.c", "c.inc"):
        repository.stage(name, "int  x;\n")
    repository.git("config", "--add", "clangFormatStaged.path", "*.[ch]")
    repository.git("config", "--add", "clangFormatStaged.path", ":!third_party")
    same(repository.check(folder="third_party"), "a.c:1: formatting would change this\n")
    same(repository.check("--", "c.inc"), "c.inc:1: formatting would change this\n")


@part("git")
def settings_of_the_user(repository):
    for key, value in (("color.ui", "always"), ("diff.noprefix", "true"), ("diff.external", "false"),
                       ("diff.context", "9"), ("diff.interHunkContext", "9"), ("diff.algorithm", "histogram"),
                       ("core.quotePath", "true"), ("diff.renames", "copies"), ("core.autocrlf", "input")):
        repository.git("config", key, value)
    repository.commit(a="int  a;\nint b;\nint  c;\n")
    repository.stage("a.c", "int  a;\nint  new;\nint  c;\n")
    same(repository.check(GIT_DIFF_OPTS="-u5", GIT_EXTERNAL_DIFF="false"), "a.c:2: formatting would change this\n")
    repository.check(GIT_LITERAL_PATHSPECS="1")
    repository.format(GIT_DIFF_OPTS="-u5", GIT_EXTERNAL_DIFF="false")
    repository.both("a.c", "int  a;\nint new;\nint  c;\n")


@part("git")
def other_kinds_of_repositories(repository):
    repository.commit(a="int a;\n")
    repository.git("worktree", "add", "-q", "-b", "other", "a tree")
    repository.put("a tree/n.c", "int  n;\n")
    repository.git("add", "n.c", folder="a tree")
    repository.format(folder="a tree")
    same(repository.git("cat-file", "blob", ":n.c", folder="a tree"), "int n;\n")
    same(repository.read("a tree/n.c"), "int n;\n")
    repository.git("init", "-q", "--bare", "bare")
    holds("work tree" in repository.format(status=2, folder="bare")[1], "nothing is said")
    repository.stage("a.c", "int  a;\n")
    top = os.fsdecode(repository.path)
    repository.format(folder="/", GIT_DIR=top + "/.git", GIT_WORK_TREE=top)
    repository.both("a.c", "int a;\n")


@part("git")
def repositories_in_folders_of_all_sorts(repository):
    for name, more in (("a:b \"c\" \\d 'e' ünï", ()), ("sha256", ("--object-format=sha256",))):
        repository.git("init", "-q", *more, name)
        repository.put(name + "/a.c", "int  a;\n")
        repository.git("add", "a.c", folder=name)
        same(repository.check(folder=name), "a.c:1: formatting would change this\n")
        same(repository.format(folder=name)[0], "a.c: formatted\n")
        same(repository.git("cat-file", "blob", ":a.c", folder=name), "int a;\n")


@part("git")
def a_conflict_that_stands(repository):
    repository.commit(a="int a;\n")
    repository.git("checkout", "-qb", "side")
    repository.commit(a="int  theirs;\n")
    repository.git("checkout", "-q", "-")
    repository.commit(a="int  mine;\n")
    repository.git("merge", "-q", "side", status=1)
    repository.stage("b.c", "int  b;\n")
    text = repository.read("a.c")
    same(repository.format()[0], "b.c: formatted\n")
    same(repository.read("a.c"), text)
    same(len(repository.git("ls-files", "-u").splitlines()), 3)
