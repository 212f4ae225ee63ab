"""The hook of git, and those of pre-commit."""
import os
import shutil

from parts import TOP, Repository, holds, part, same


def hook(repository):
    shutil.copy(os.path.join(TOP, "integrations", "git", "hooks", "pre-commit"), repository.at(".git/hooks/pre-commit"))
    return repository


@part("git")
def hook_refuses_and_names(repository):
    hook(repository).stage("a b.c", "int x;\nint  y;\n")
    out, err = repository.run("git", "commit", "-m", "m", status=1)
    holds("a b.c:2: " in out + err and "git clang-format-staged" in err, out + err)
    repository.format()
    repository.git("commit", "-qm", "m")
    same(repository.git("show", "HEAD:a b.c"), "int x;\nint y;\n")
    repository.put("a b.c", "int x;\nint  y;\n")
    repository.git("commit", "-qm", "nothing staged", "--allow-empty")
    repository.git("commit", "-qam", "m", status=1)
    repository.git("commit", "-qm", "m", "--", "a b.c", status=1)
    repository.git("--literal-pathspecs", "commit", "-qam", "m", status=1)
    repository.git("commit", "-qam", "m", "--no-verify")
    repository.git("worktree", "add", "-q", "-b", "other", "a tree")
    repository.put("a tree/n.c", "int  n;\n")
    repository.git("add", "n.c", folder="a tree")
    repository.git("commit", "-qm", "m", status=1, folder="a tree")


@part("git")
def hook_takes_the_commit_and_not_the_rest(repository):
    hook(repository).commit(a="int a;\n")
    repository.stage("a.c", "int a;\nint  staged;\n")
    repository.put("b/b.c", "int b;\n")
    repository.git("add", "b/b.c")
    repository.git("commit", "-qm", "only b", "--", "b.c", folder="b")
    repository.git("commit", "-qm", "both", status=1)
    repository.git("config", "core.hooksPath", os.path.join(TOP, "integrations", "git", "hooks"))
    repository.git("commit", "-qm", "both", status=1, folder="b")
    repository.format(folder="b")
    repository.git("commit", "-qm", "both", folder="b")


@part("git")
def commits_that_are_rebased(repository):
    repository.commit(a="int a;\n")
    repository.commit(b="int  b;\n")
    repository.commit(c="int  c;\n")
    repository.git("rebase", "-q", "HEAD~2", "--exec",
                   "git clang-format-staged --since HEAD~1 && git commit -q --amend --no-edit")
    same(repository.git("show", "HEAD~1:b.c", "HEAD:c.c"), "int b;\nint c;\n")


@part("git", "pre-commit")
def pre_commit_on_a_tree(repository):
    repository.put(".pre-commit-config.yaml", "repos:\n- repo: local\n  hooks:\n" + "".join(
        "  - id: %s\n    name: n\n    entry: %s\n    language: system\n    types: [c]\n" % pair for pair in (
            ("clang_format", "clang_format -i"), ("clang_format-check", "clang_format --dry-run --Werror"))))
    for name in ("a b.c", "x.h", "other.txt", "ünï.c"):
        repository.stage(name, "int  x;\n")
    repository.stage("fine.c", "int x;\n")
    repository.run("pre-commit", "run", "clang_format-check", status=1)
    repository.run("pre-commit", "run", "clang_format", status=1)
    same([repository.read(name) for name in ("a b.c", "x.h", "ünï.c")], ["int x;\n"] * 3)
    same(repository.read("other.txt"), "int  x;\n")
    repository.git("add", "-A")
    repository.run("pre-commit", "run", "--all-files")


@part("git", "pre-commit")
def pre_commit_by_the_hooks_of_this_repository(repository):
    hooks = Repository(os.fsdecode(repository.path) + "-hooks", repository.environ)
    for name in (".pre-commit-hooks.yaml", "integrations/git/git-clang-format-staged"):
        os.makedirs(os.path.dirname(hooks.at(name)), exist_ok=True)
        shutil.copy(os.path.join(TOP, name), hooks.at(name))
    hooks.git("add", "-A")
    hooks.git("commit", "-qm", "m")
    repository.commit(a="int  a;\n")
    repository.stage("a.c", "int  a;\nint  b;\n")
    tried = ("pre-commit", "try-repo", os.fsdecode(hooks.path))
    repository.run(*tried, "clang_format-check", status=1)
    holds("a.c:2: " in repository.run(*tried, "clang_format-changed-lines", status=1)[0], "the line isn't named")
    repository.run(*tried, "clang_format", status=1)
    same(repository.read("a.c"), "int a;\nint b;\n")
