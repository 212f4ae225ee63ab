"""Builds and the jobs of services."""
import os
import shutil

from parts import TOP, Folder, holds, part, same


def tree(folder):
    folder.put("sub dir/a b.c", "int  x;\n")
    folder.put("-i.h", "int  x;\n")
    folder.put("fine.c", "int x;\n")
    folder.put("other.txt", "int  x;\n")
    shutil.copytree(os.path.join(TOP, "integrations", "build"), os.fsdecode(folder.at("tools")))


def formatted(folder):
    same([folder.read(name) for name in ("sub dir/a b.c", "-i.h", "fine.c", "other.txt")],
         ["int x;\n"] * 3 + ["int  x;\n"])


@part("git", "sh")
def format_tree(repository):
    outside = Folder(os.fsdecode(repository.path) + "-outside", repository.environ)
    outside.put("x.c", "int  x;\n")
    tree(repository)
    os.symlink(outside.at("x.c"), repository.at("link.c"))
    repository.stage("gone.c", "int  x;\n")
    repository.stage("open.c", "/* open\n")
    repository.git("add", "-A")
    repository.put("untracked.c", "int  x;\n")
    os.unlink(repository.at("gone.c"))
    out, err = repository.run("tools/format-tree", "--check", status=1)
    same(sorted((out + err).splitlines()), [
        "-i.h: formatting would change this", "open.c: comment without an end at byte 0",
        "sub dir/a b.c: formatting would change this"])
    repository.run("tools/format-tree", "--check", "*.c", ":!sub dir", ":!open.c")
    repository.run("tools/format-tree", status=1)
    formatted(repository)
    same(outside.read("x.c") + repository.read("untracked.c"), "int  x;\n" * 2)
    repository.run("tools/format-tree", "--check", "*.[ch]", ":!open.c")
    repository.run("tools/format-tree", "--check", status=2, CLANG_FORMAT="nowhere")


@part("sh")
def format_tree_without_git(folder):
    tree(folder)
    folder.run("tools/format-tree", "--check", status=1, GIT_CEILING_DIRECTORIES="/")
    folder.run("tools/format-tree")
    formatted(folder)
    folder.run("tools/format-tree", "--check")
    folder.put("empty/x.txt", "")
    folder.run("../tools/format-tree", "--check", folder="empty")


@part("git", "make")
def make_targets(repository):
    tree(repository)
    repository.put("Makefile", "include tools/format.mk\nFORMAT_FILES = '*.[ch]' ':!skipped'\nall:\n\t@echo all\n")
    repository.put("skipped/x.c", "int  x;\n")
    repository.git("add", "-A")
    same(repository.run("make", "--no-print-directory")[0], "all\n")
    repository.run("make", "format-check", status=2)
    repository.run("make", "format")
    formatted(repository)
    repository.run("make", "format-check")
    same(repository.read("skipped/x.c"), "int  x;\n")


@part("git", "cmake", "make")
def cmake_targets(repository):
    tree(repository)
    repository.put("CMakeLists.txt", "cmake_minimum_required(VERSION 3.15)\nproject(p NONE)\n"
                                     "include(tools/ClangFormat.cmake)\n")
    repository.put("skipped/x.c", "int  x;\n")
    repository.git("add", "-A")
    repository.run("cmake", "-S", ".", "-B", "build", "-G", "Unix Makefiles", "-DCLANG_FORMAT_FILES=*.[ch];:!skipped")
    repository.run("cmake", "--build", "build", "--target", "format-check", status=None)
    same(repository.read("-i.h"), "int  x;\n")
    repository.run("cmake", "--build", "build", "--target", "format")
    formatted(repository)
    repository.run("cmake", "--build", "build", "--target", "format-check")
    same(repository.read("skipped/x.c"), "int  x;\n")


def steps(name):
    """The shell lines of a job."""
    with open(os.path.join(TOP, "integrations", "ci", name)) as file:
        lines = [line.strip().lstrip("- ").strip() for line in file]
    return [line for line in lines if line.startswith(("git ", "format-tree --"))]


def jobs(repository, variables, wanted):
    """What the calls of the program write, after the other lines of their jobs."""
    for name in ("github.yml", "gitlab.yml", "Jenkinsfile"):
        lines = steps(name)
        calls = [line for line in lines if not line.startswith("git fetch")]
        same(len(calls), 2)
        for line in lines:
            written = repository.run("sh", "-c", line, status=wanted if line in calls else 0, **variables)
            if line in calls:
                yield line, "".join(written)


@part("git", "sh")
def jobs_of_services(repository):
    repository.commit(a="int a;\n")
    repository.git("branch", "-q", "target")
    repository.git("remote", "add", "origin", ".")
    repository.git("fetch", "-q", "origin")
    variables = dict(GITHUB_BASE_REF="target", CHANGE_TARGET="target")
    variables["CI_MERGE_REQUEST_DIFF_BASE_SHA"] = repository.git("rev-parse", "HEAD").strip()
    repository.commit(a="int a;\nint  b;\n")
    for line, said in jobs(repository, variables, 1):
        holds(said == ("a.c:2: " if "staged" in line else "a.c: ") + "formatting would change this\n", line + said)
    repository.commit(a="int a;\nint b;\n")
    same([said for _, said in jobs(repository, variables, 0)], [""] * 6)
