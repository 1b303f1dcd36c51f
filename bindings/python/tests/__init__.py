"""Tests of the package over the library of this repository, bindings/lib, or over that in the folder that YENGATOMU_LIB_DIR names.

python3 -m unittest      in bindings/python
"""

import os

os.environ.setdefault("YENGATOMU_LIB_DIR", os.path.join(os.path.dirname(os.path.abspath(__file__)), "..", "..", "lib"))
