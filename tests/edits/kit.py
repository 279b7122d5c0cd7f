"""The command `rt` of the kit as a module, and the top of this repository."""
import importlib.machinery
import os
import shutil
import sys
import types

sys.dont_write_bytecode = True
ROOT = os.path.dirname(os.path.dirname(os.path.dirname(os.path.realpath(__file__))))


def load_rt():
    path = os.path.realpath(shutil.which("rt") or "/opt/rattle/bin/rt")
    module = types.ModuleType("rt_command")
    module.__file__ = path
    importlib.machinery.SourceFileLoader("rt_command", path).exec_module(module)
    return module


def by_truth(must_fail):
    """Returns the kit's function that tries an edit, with whether the edit is refused in place of
    the kit's word for what the try came to. Some kits return that truth value themselves."""
    refused = [getattr(rt, name) for name in ("REFUSED", "AT_LIMIT") if hasattr(rt, name)]

    def tried(*given):
        outcome, said = must_fail(*given)
        return (outcome in refused if refused else outcome is True), said

    return tried


rt = load_rt()
rt.must_fail = by_truth(rt.must_fail)
# (some kits keep no work for other checkouts, and copy no folders by links)
rt.work_for = getattr(rt, "work_for", lambda crate: None)
rt.linked = getattr(rt, "linked", shutil.copytree)
