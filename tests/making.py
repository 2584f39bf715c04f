"""What the scripts that make test data share."""
import importlib.util
import shutil
import subprocess
import sys


def stop(text): sys.exit("make.py: " + text)


def load_reference(path):
    """The module reader.py."""
    spec = importlib.util.spec_from_file_location("reader", path)
    module = importlib.util.module_from_spec(spec)
    spec.loader.exec_module(module)
    return module


def install():
    """lua5.4 and LPeg from Debian, where they are absent."""
    found = shutil.which("lua5.4") and subprocess.run(["lua5.4", "-e", 'require "lpeg"'], stderr=subprocess.DEVNULL).returncode == 0
    if not found: subprocess.run(["apt-get", "install", "-y", "lua5.4", "lua-lpeg"], check=True)


class Store:
    """Pieces one after the other; a piece that stands there already is found again."""

    def __init__(self): self.data = bytearray()

    def place(self, piece):
        at = self.data.find(piece)
        if at < 0:
            at = len(self.data)
            self.data += piece
        return at, len(piece)


def line(*numbers):
    """A line of fields of 8 columns."""
    out = "".join(f"{x:8}" for x in numbers)
    if len(out) != 8 * len(numbers): stop(f"a number is too wide: {numbers}")
    return out.encode() + b"\n"
