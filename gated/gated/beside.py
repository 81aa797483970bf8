"""The package of the library (`gate`), which lies beside gated: where `make lib` puts it or in lib/python of the repository, in
share/gate where `make install` puts all of it, or within gated where pip does. If gated lies elsewhere, the variable GATE_SHARE
says where share/gate is.

It is loaded by its path. What the current folder or PYTHONPATH has under its name is never run.
"""

from __future__ import annotations

import importlib.util
import os
import sys
from pathlib import Path

HERE = Path(__file__).resolve()
TOP = HERE.parents[2]
IS_IN_TREE = (HERE.parents[1] / "pyproject.toml").is_file()
IN_TREE = (TOP / "crates/gate_c/out/library/share/gate/python", TOP / "lib/python") if IS_IN_TREE else ()
INSTALLED = tuple(map(Path, (os.environ.get("GATE_SHARE", TOP), "/usr/local/share/gate", "/usr/share/gate")))
PLACES = (*IN_TREE, HERE.parent / "library", *(top / "python" for top in INSTALLED))
NAME = "gate"


def load_library() -> None:
    """Loads the package of the library, so that `import gate` finds it. ImportError if it is nowhere."""
    if NAME in sys.modules:
        return
    for place in PLACES:
        init = place / NAME / "__init__.py"
        if init.is_file():
            spec = importlib.util.spec_from_file_location(NAME, init, submodule_search_locations=[str(init.parent)])
            assert spec is not None and spec.loader is not None
            sys.modules[NAME] = found = importlib.util.module_from_spec(spec)
            spec.loader.exec_module(found)
            return
    raise ImportError("the package %s lies in none of %s" % (NAME, ", ".join(map(str, PLACES))))
