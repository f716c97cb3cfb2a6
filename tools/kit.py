"""What tools/tests, tools/edits, tools/kept-libraries and tools/proved have in common: they work by rt's own code, which stands behind the
command rt. A new kit may move it, and then they stop loudly; nothing that the gate's proofs say rests on it."""
import importlib.machinery
import importlib.util
import os
import shutil
import sys

TOP = os.path.dirname(os.path.dirname(os.path.abspath(__file__)))


def text_of(path):
    with open(path, encoding="utf-8") as file:
        return file.read()


def write(path, text, mode=0o644):
    os.makedirs(os.path.dirname(path), exist_ok=True)
    with open(path, "w", encoding="utf-8") as file:
        file.write(text)
    os.chmod(path, mode)


def program_at(path):
    """Returns the code of a program in Python, which has no ending, as a module."""
    loader = importlib.machinery.SourceFileLoader(os.path.basename(path), path)
    module = importlib.util.module_from_spec(importlib.util.spec_from_loader(loader.name, loader))
    loader.exec_module(module)
    return module


def rt_code():
    """Returns rt's own code, as a module."""
    path = os.path.realpath(shutil.which("rt"))
    sys.path.insert(0, os.path.dirname(path))
    module = program_at(path)
    module.rtlib.Crate = module.Crate
    return module


def crates_of(rt, top):
    """Returns the crates of the repository at this place, by name, the lowest first; it has to be where one stands."""
    rt.Crate.allowed = rt.handles_of(top)
    return {crate.name: crate for crate in rt.crates_of(top)}
