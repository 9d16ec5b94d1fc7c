"""Shows that the pictures in docs/pictures/ are what reference/pictures.py draws of the sources and of documents."""

import sys

from crates import ROOT

sys.path.append(ROOT)

from reference.pictures import check, write  # noqa: E402, F401
