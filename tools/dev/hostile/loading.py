"""A program of Python as a module."""
import functools
import importlib.machinery
import importlib.util
import os
import sys
from types import ModuleType


@functools.cache
def loaded_file(path: str) -> ModuleType:
    """A program of Python as a module, of which nothing is kept beside it."""
    name = os.path.basename(path)
    loader = importlib.machinery.SourceFileLoader(name, path)
    spec = importlib.util.spec_from_loader(name, loader)
    assert spec is not None
    module = importlib.util.module_from_spec(spec)
    keeps, sys.dont_write_bytecode = sys.dont_write_bytecode, True
    try:
        loader.exec_module(module)
    finally:
        sys.dont_write_bytecode = keeps
    return module
