"""Scripts without an extension as modules: the tools of deploy/, edge/ and tools/ of which tests call single functions."""
import importlib.machinery
import importlib.util
import os
import sys

LIB = os.path.dirname(os.path.abspath(__file__))
DEPLOY = os.path.join(LIB, "..", "..", "deploy")


def use_tools():
    """Makes the package of the tools, deploy/hls_tools, importable."""
    sys.dont_write_bytecode = True
    if DEPLOY not in sys.path:
        sys.path.append(DEPLOY)


def load_script(path):
    """Returns the script as a new module. Writes no bytecode beside it."""
    use_tools()
    loader = importlib.machinery.SourceFileLoader(os.path.basename(path), path)
    module = importlib.util.module_from_spec(importlib.util.spec_from_loader(loader.name, loader))
    loader.exec_module(module)
    return module
