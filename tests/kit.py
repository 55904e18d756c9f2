"""The kit's own account of a crate, from the library that `rt` itself runs on: what it uses, and the words that the kit's compiler takes for it."""
import importlib.machinery
import importlib.util
import os
import subprocess
import sys

ROOT = os.path.dirname(os.path.dirname(os.path.abspath(__file__)))
KIT = os.path.dirname(subprocess.run(["rt", "doc"], stdout=subprocess.PIPE, text=True, check=True).stdout.strip())


def _library():
    sys.dont_write_bytecode = True
    loader = importlib.machinery.SourceFileLoader("rtlib", f"{KIT}/bin/rtlib.py")
    made = importlib.util.module_from_spec(importlib.util.spec_from_loader("rtlib", loader))
    sys.modules["rtlib"] = made
    loader.exec_module(made)
    return made


rtlib = _library()


def crate(name):
    """The crate of that name, with its folder, and what lies below it."""
    rtlib.guarded()
    return rtlib.Crate(f"{ROOT}/crates/{name}", ROOT, {})


def archive(name):
    """What the archive of a static library is called: that of controller_c is libcontroller.a, since C knows no other crate of that name."""
    return f"lib{name[:-2] if name.endswith('_c') else name}.a"


def sources(crate):
    """The words that hand the libraries below a crate to the kit as source, those of the repository and the kit's own."""
    return [*crate.sources_below(), *rtlib.kit_sources(name for it in [crate, *crate.below()] for name in it.of_kit)]
