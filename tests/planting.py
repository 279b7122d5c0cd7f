"""What the tests of tools share that plant changes in a copy of a part of the repository: the
copy."""
import os
import shutil
import subprocess

TOP = os.path.dirname(os.path.dirname(os.path.realpath(__file__)))


class Copy:
    """A folder with a part of the repository, in which something is changed."""

    def __init__(self, root):
        self.root = root

    def take(self, path, *left_out):
        """Copies a file or a folder of the repository, but for what has one of some names."""
        if os.path.isdir(f"{TOP}/{path}"):
            ignored = shutil.ignore_patterns("out", "__pycache__", *left_out)
            shutil.copytree(f"{TOP}/{path}", f"{self.root}/{path}", ignore=ignored)
        else:
            shutil.copy(f"{TOP}/{path}", f"{self.root}/{path}")

    def read(self, path):
        with open(f"{self.root}/{path}", encoding="utf-8") as file:
            return file.read()

    def write(self, path, text, how="w"):
        os.makedirs(os.path.dirname(f"{self.root}/{path}"), exist_ok=True)
        with open(f"{self.root}/{path}", how, encoding="utf-8") as file:
            file.write(text)

    def add(self, path, text):
        """Adds a text at the end of a file, which may be new."""
        self.write(path, text, "a")

    def change(self, path, old, new):
        """Changes the first place of a file that has this text."""
        text = self.read(path)
        if old not in text:
            raise ValueError(f"{path} has no text {old!r}")
        self.write(path, text.replace(old, new, 1))

    def run(self, tool, *words):
        """Runs a tool of the copy, and returns its status, what it printed, and its faults."""
        ran = subprocess.run([f"{self.root}/{tool}", *words], text=True, capture_output=True)
        return ran.returncode, ran.stdout, ran.stderr
