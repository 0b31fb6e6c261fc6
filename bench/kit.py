"""The kit, for the scripts beside: they run at the repository's top."""
import importlib.machinery
import importlib.util
import os
import shutil
import sys


def load_kit():
    """The kit's own command as a module: it knows how a crate is checked."""
    path = os.path.realpath(shutil.which("rt"))
    loader = importlib.machinery.SourceFileLoader("rtmain", path)
    module = importlib.util.module_from_spec(importlib.util.spec_from_loader("rtmain", loader))
    sys.modules["rtmain"] = module
    sys.path.insert(0, os.path.dirname(path))
    loader.exec_module(module)
    module.Crate.cuts_libraries = True
    module.Crate.allowed = module.handles_of(os.getcwd())
    module.rtlib.Crate = module.Crate
    # a crate's checksum is that of all crates below it: each is computed once
    own, known = module.rtlib.Crate.stamp, {}

    def stamp(crate):
        if crate.folder not in known:
            known[crate.folder] = own(crate)
        return known[crate.folder]

    module.rtlib.Crate.stamp = stamp
    return module
