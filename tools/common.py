"""What several tools need."""
import importlib.machinery
import importlib.util
import os
import shutil
import sys

ROOT = os.path.dirname(os.path.dirname(os.path.abspath(__file__)))


def kit():
    """Loads the command `rt` of the Rattle kit as a module, or ends with a message if there is none."""
    found = shutil.which("rt")
    if not found:
        sys.exit("there is no command `rt` on PATH: install the Rattle kit, and see README.md for its version")
    command = os.path.realpath(found)
    sys.path.insert(0, os.path.dirname(command))
    loader = importlib.machinery.SourceFileLoader("rt_command", command)
    module = importlib.util.module_from_spec(importlib.util.spec_from_loader("rt_command", loader))
    loader.exec_module(module)
    return module
