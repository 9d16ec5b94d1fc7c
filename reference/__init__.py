"""What writes the reference, docs/api/, from the sources of the library: `.ci/check --write`. `.ci/check api` tells whether it is up to date.

api has the pages, layout the order on a page, sections the items, words and kit the words of clauses, examples the examples, lemmas the
page of laws and lemmas, index the first page.
"""

import os
import sys

# The crates, and what reads their sources, are the checks' too.
sys.path.append(os.path.join(os.path.dirname(os.path.dirname(os.path.abspath(__file__))), ".ci"))
