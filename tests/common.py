"""What the scripts of tests/ share: where things are, scripts as modules, and libraries that make calls and allocations fail."""
import importlib.machinery
import importlib.util
import os
import subprocess
from types import ModuleType

ROOT = os.path.dirname(os.path.dirname(os.path.abspath(__file__)))


class Wrong(Exception):
    """Something did not hold; says what."""


def expect(truth: object, what: object) -> None:
    """Says what did not hold, unless it holds."""
    if not truth:
        raise Wrong(what)


def script(path: str) -> ModuleType:
    """Returns a script, whose name has no ending, as a module. The path begins at the top of the repository."""
    name = os.path.basename(path)
    loader = importlib.machinery.SourceFileLoader(name, f"{ROOT}/{path}")
    module = importlib.util.module_from_spec(importlib.util.spec_from_loader(name, loader))
    loader.exec_module(module)
    return module


def preload(name: str, folder: str) -> str:
    """Builds a library of tests/preload in a folder, for LD_PRELOAD. Returns its path."""
    library = f"{folder}/{name}.so"
    words = ["cc", "-shared", "-fPIC", "-O1", "-o", library, f"{ROOT}/tests/preload/{name}.c", "-ldl"]
    subprocess.run(words, check=True)
    return library
