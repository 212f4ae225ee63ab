"""What the parts of checks/integrations are made of: folders to work in, and what has to hold."""
import os
import subprocess

TOP = os.path.dirname(os.path.dirname(os.path.dirname(os.path.abspath(__file__))))
PARTS = []


def part(*tools):
    """Marks a function as a part that needs these tools."""
    def mark(function):
        PARTS.append((tools, function))
        return function
    return mark


def same(got, wanted):
    if got != wanted:
        raise AssertionError("got %r, wanted %r" % (got, wanted))


def holds(fact, said):
    if not fact:
        raise AssertionError(said)


class Folder:
    """A folder to work in, with the calls that parts make."""

    def __init__(self, path, environ):
        self.path, self.environ = os.fsencode(path), environ
        os.makedirs(path)

    def at(self, name):
        return os.path.join(self.path, os.fsencode(name))

    def put(self, name, text):
        os.makedirs(os.path.dirname(self.at(name)), exist_ok=True)
        with open(self.at(name), "wb") as file:
            file.write(text.encode() if isinstance(text, str) else text)

    def read(self, name):
        with open(self.at(name), "rb") as file:
            return file.read().decode("utf-8", "surrogateescape")

    def run(self, *words, data="", status=0, folder=None, **more):
        """Standard output and standard error; the status has to be this one, where it isn't None."""
        done = subprocess.run(words, input=data.encode(), stdout=subprocess.PIPE, stderr=subprocess.PIPE, timeout=50,
                              cwd=self.at(folder or "."), env=dict(self.environ, **more))
        out, err = (text.decode("utf-8", "surrogateescape") for text in (done.stdout, done.stderr))
        if status is not None and done.returncode != status:
            raise AssertionError("%r: status %d, wanted %d: %s%s" % (words, done.returncode, status, out, err))
        return out, err


class Repository(Folder):
    def __init__(self, path, environ):
        super().__init__(path, environ)
        self.git("init", "-q", ".")

    def git(self, *words, **more):
        return self.run("git", *words, **more)[0]

    def stage(self, name, text):
        self.put(name, text)
        self.git("add", "--", ":(literal)" + os.fsdecode(name))

    def commit(self, **texts):
        for name, text in texts.items():
            self.stage(name + ".c", text)
        self.git("commit", "-qm", "m", "--allow-empty")

    def index(self, name):
        return self.git("cat-file", "blob", ":0:" + os.fsdecode(name))

    def format(self, *words, **more):
        return self.run("git", "clang-format-staged", *words, **more)

    def check(self, *words, status=1, **more):
        return self.format("--check", *words, status=status, **more)[0]

    def both(self, name, text):
        same(self.index(name), text)
        same(self.read(name), text)
