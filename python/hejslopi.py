#!/usr/bin/env python3
"""The command `hejslopi`, where it is not installed: python3 python/hejslopi.py. To Python, `import hejslopi` is the package beside this file."""
import os
import sys

sys.path.insert(0, os.path.dirname(os.path.realpath(__file__)))

from hejslopi.command import entry  # noqa: E402

entry()
