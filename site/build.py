"""Builds the site of the documents into site/out, and serves it to this machine."""

import functools
import http.server
import os
import re
import shutil
import subprocess
import sys
import time

HERE = os.path.dirname(os.path.abspath(__file__))
BUILT = os.path.join(HERE, "out")
# Debian's packages, and what each brings.
BUILDER = {"mkdocs": "/usr/bin/mkdocs", "mkdocs-material": "/usr/share/mkdocs/themes/material"}


def install(packages):
    """Installs those packages that did not bring what they bring."""
    missing = [package for package, brought in packages.items() if not os.path.exists(brought)]
    if not missing:
        return
    if not shutil.which("apt-get"):
        sys.exit(f"site: this needs Debian's {' and '.join(missing)}, and there is no apt-get to install them")
    command = ["sudo"] * (os.geteuid() != 0) + ["apt-get"]
    words = [*command, "install", "-y", "--no-install-recommends", *missing]
    if subprocess.run(words).returncode:
        subprocess.run([*command, "update"], check=True)
        subprocess.run(words, check=True)


def said(text):
    """Returns what mkdocs says without what it only mentions: lines of INFO, and the indented ones below them."""
    kept, is_mentioned = [], False
    for line in re.sub(r"\x1b\[\d*m", "", text).splitlines():
        is_mentioned = line.startswith("INFO") or is_mentioned and line.startswith(" ")
        kept += [line] * (bool(line) and not is_mentioned)
    return "\n".join(kept)


def build(folder=HERE):
    """Builds the site of the repository in which this folder lies. Returns whether all is well, and what mkdocs warns of."""
    install(BUILDER)
    words = [BUILDER["mkdocs"], "build", "--strict", "-f", os.path.join(folder, "mkdocs.yml")]
    run = subprocess.run(words, stdout=subprocess.PIPE, stderr=subprocess.STDOUT, text=True)
    return run.returncode == 0, said(run.stdout)


def build_or_exit():
    start = time.monotonic()
    is_well, faults = build()
    if not is_well:
        sys.exit(f"{faults}\nsite: the build failed")
    print(f"built {os.path.relpath(BUILT)} in {time.monotonic() - start:.0f} seconds")


class Handler(http.server.SimpleHTTPRequestHandler):
    """Serves files, and says nothing of it."""

    def log_message(self, *_):
        pass


def server(port):
    """Returns a server of the site on the loopback address; the port 0 stands for any free one."""
    return http.server.ThreadingHTTPServer(("127.0.0.1", port), functools.partial(Handler, directory=BUILT))
