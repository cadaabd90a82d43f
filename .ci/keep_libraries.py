"""Lets `rt lib` build over what `rt ci` has proved in this checkout.

The gate proves each library and leaves it built, but writes no stamp beside it. So other commands would prove all of
them again, which takes an hour on four slow cores. Only the gate's script calls this, right after the gate has passed.
With a kit that it was not written for it writes nothing, and `rt lib` proves all.
"""
import importlib.machinery
import importlib.util
import os
import shutil
import sys


def load_kit():
    """Loads the kit's command as a module."""
    path = os.path.realpath(shutil.which("rt"))
    loader = importlib.machinery.SourceFileLoader("rt", path)
    module = importlib.util.module_from_spec(importlib.util.spec_from_loader("rt", loader))
    sys.modules["rt"] = module
    loader.exec_module(module)
    return module


def main():
    sys.dont_write_bytecode = True
    kit = load_kit()
    kit.Crate.allowed = kit.handles_of(os.getcwd())
    stamped = 0
    for crate in kit.crates_of(os.getcwd()):
        if not crate.is_program and not crate.is_static and os.path.isdir(crate.rlib):
            with open(os.path.join(crate.folder, "out", "rlib", "stamp"), "w", encoding="utf-8") as file:
                file.write(crate.stamp())
            stamped += 1
    print(f"{stamped} libraries are those that the gate has proved")


if __name__ == "__main__":
    try:
        main()
    except (AttributeError, ImportError, OSError, TypeError) as why:
        print(f"the library for C is proved once more: {why}")
