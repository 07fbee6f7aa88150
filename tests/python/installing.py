"""Pythons that packages are installed with."""
import os
import subprocess
import sys
from typing import Optional

PYTHONS = [sys.executable, "/usr/bin/python3"]


def with_modules(*names: str) -> Optional[str]:
    """A Python that has these modules, or None."""
    for python in PYTHONS:
        looks = "import importlib.util, sys; sys.exit(not all(map(importlib.util.find_spec, sys.argv[1:])))"
        if os.path.exists(python) and subprocess.run([python, "-c", looks, *names]).returncode == 0:
            return python
    return None
