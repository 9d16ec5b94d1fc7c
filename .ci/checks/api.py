"""Shows that the reference in docs/api/ is what the sources make, by reference/, which says what it refuses."""

import sys

from crates import ROOT

sys.path.append(ROOT)

from reference.api import check, write  # noqa: E402, F401
