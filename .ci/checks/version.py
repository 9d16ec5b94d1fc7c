"""The version: crates.txt, README and the newest entry of CHANGELOG name one, the latter two with its day or `unreleased`."""

import re

from crates import version
from checks.items import text_of


def check():
    number = version()[1]
    patterns = {"README.md": r"^Version: (\S+), (\S+)\. ", "CHANGELOG.md": r"^## (\d\S*) - (\S+)$"}
    found = {path: re.search(pattern, text_of(path), re.M) for path, pattern in patterns.items()}
    named = {path: it and it.groups() for path, it in found.items()}
    faults = [f"{path} does not name version {number} of crates.txt" for path, it in named.items() if not it or it[0] != number]
    return faults or ([] if len(set(named.values())) == 1 else ["README and CHANGELOG name two days of one version"])
