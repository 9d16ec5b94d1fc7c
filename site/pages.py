"""What mkdocs calls while it builds the site: pages of files outside docs/, the links to them, and calls by task.

- A page lies where its file lies in the repository, so links lead where they lead there. README.md is the first page. A file of
  code that a document links to becomes a page of highlighted text, and a folder a page of links to its files.
- The search finds pages of code by their paths alone.
- A heading has the name that links give it on the hosts of repositories.
- A page of the reference begins with its summary and its calls by task.
- The build fails at a link to a page, a heading or a file that is not there, and at a page of docs/ in no part of the navigation.
"""

import collections
import functools
import glob
import html
import logging
import os
import posixpath
import re
import sys
from urllib.parse import unquote

import pygments
from mkdocs.structure.files import File, Files
from pygments.formatters import HtmlFormatter
from pygments.lexers import LEXERS, TextLexer, get_lexer_for_filename, guess_lexer
from pygments.util import ClassNotFound

HERE = os.path.dirname(os.path.abspath(__file__))
ROOT = os.path.dirname(HERE)
TOP_PAGES = ("README.md", "CHANGELOG.md")
PICTURES = (".svg", ".png")
FENCE = re.compile(r"^ *```.*?^ *```$", re.M | re.S)
LINK = re.compile(r"\]\(([^()\s#]+)(?:#[^()\s]*)?\)")
ADDRESS = re.compile(r' (?:href|src)="([^"]*)"')
DOTLESS = re.compile(r' href="((?:[^"#:]*/)?[^"#.:/]+)"')
SPAN = re.compile(r"<code>[^<\n]*</code>")
ID = re.compile(r' id="([^"]*)"')
CALLS = re.compile(r"^## Calls\n(.*?)(?=^## )", re.M | re.S)
TASK = re.compile(r"^### ([^\n]*)\n(.*?)(?=^### |\Z)", re.M | re.S)
CALL = re.compile(r"^\| (\[`[^|]*?\)) \|", re.M)
SUMMARY = re.compile(r"# [^\n]*\n\n(?:[^\n]+\n)+")
FORM = HtmlFormatter(linenos="table", wrapcode=True, lineanchors="L", anchorlinenos=True)

sys.path.insert(0, HERE)  # where lexers.py lies
LEXERS["RustLexer"] = ("lexers", "Rattle", ("rust", "rattle"), ("*.rs", "*.rt", "*.unproved"), ())
LEXERS["AnttLexer"] = ("lexers", "Antt", ("antt",), ("*.antt",), ())
log = logging.getLogger("mkdocs.pages")


class Code(File):
    """A file of code, or a folder, that becomes a page."""

    def is_documentation_page(self):
        return True

    def _get_dest_path(self, use_directory_urls):
        return self.src_uri + ("/index.html" if os.path.isdir(self.abs_src_path) else ".html")


class Names:
    """The names of the headings of a page, as links give them. A heading that is called as an earlier one has a number behind it."""

    def __init__(self):
        self.counts = collections.Counter()

    def name(self, heading, separator):
        name = re.sub(r"[^\w\- ]", "", html.unescape(heading).lower()).replace(" ", separator)
        self.counts[name] += 1
        return name if self.counts[name] == 1 else f"{name}-{self.counts[name] - 1}"


NAMES = Names()
contents = {}  # the content of each page, by its address in the site


def in_root(path):
    return os.path.join(ROOT, path)


def spread(entry):
    """Returns an entry of the navigation with the pages of a folder in place of its name."""
    if isinstance(entry, dict):
        return {title: spread(below) for title, below in entry.items()}
    if isinstance(entry, list):
        return [spread(it) for it in entry]
    if entry.endswith("/"):
        paths = [os.path.relpath(it, ROOT) for it in glob.glob(in_root(f"{entry}*.md"))]
        return sorted(paths, key=lambda it: (not it.endswith("README.md"), it))
    return entry


def on_config(config):
    config.nav = spread(config.nav)
    config.mdx_configs["toc"]["slugify"] = NAMES.name
    return config


def targets(path):
    """Returns the files and folders of the repository that a document links to, as links name them."""
    with open(in_root(path), encoding="utf-8") as file:
        found = LINK.findall(FENCE.sub("", file.read()))
    return {posixpath.normpath(posixpath.join(posixpath.dirname(path), unquote(it))) for it in found if "://" not in it}


def files_below(folder):
    """Returns the files in a folder and in those below it."""
    return sorted(it for it in glob.glob(f"{in_root(folder)}/**", recursive=True) if os.path.isfile(it))


def on_files(files, config):
    """Puts the documents where they lie in the repository, and the files that they link to beside them."""
    theme = [file for file in files if not file.abs_src_path.startswith(config.docs_dir + os.sep)]
    documents = [*TOP_PAGES, *(f"docs/{file.src_uri}" for file in files if file not in theme)]
    linked = {it for path in documents if path.endswith(".md") for it in targets(path) if os.path.exists(in_root(it))} - set(documents)
    linked |= {os.path.relpath(it, ROOT) for folder in linked for it in files_below(folder)}
    pictures = {it for it in linked if it.endswith(PICTURES)}
    where = (ROOT, config.site_dir, False)
    plain = [File(path, *where) for path in [*documents, *sorted(pictures), *config.extra_css]]
    return Files([*theme, *plain, *(Code(path, *where) for path in sorted(linked - pictures))])


def on_nav(nav, config, files):
    for file in files.documentation_pages():
        if not isinstance(file, Code) and file.page.parent is None:
            log.warning(f"{file.src_uri} is in no part of the navigation")
    return nav


def on_page_read_source(page, config):
    return f"---\nhide: [navigation, toc]\n---\n# {page.file.src_uri}\n" if isinstance(page.file, Code) else None


def tasks(calls):
    """Returns a table of the calls that a section has, with a row for each task."""
    rows = [(task, CALL.findall(table)) for task, table in TASK.findall(calls)]
    table = "".join(f"| {task} | {' '.join(found)} |\n" for task, found in rows if found)
    return f'\n<div class="tasks" markdown>\n\n| task | calls |\n|---|---|\n{table}\n</div>\n'


def on_page_markdown(markdown, page, config, files):
    NAMES.counts.clear()
    page.title = page.title.replace("::", "::\u200b")  # where a long path may break in the navigation
    section, summary = CALLS.search(markdown), SUMMARY.match(markdown)
    if page.file.src_uri.startswith("docs/api/") and section and TASK.search(section[1]):
        return summary[0] + tasks(section[1]) + markdown[summary.end() :]
    return markdown


def on_page_content(content, page, config, files):
    """Leads links to names without a dot, which mkdocs takes for none of its files, to their pages. Lets paths break at colons."""

    def led(match):
        path = posixpath.normpath(posixpath.join(posixpath.dirname(page.file.src_uri), unquote(match[1])))
        file = files.get_file_from_path(path)
        return f' href="{file.url_relative_to(page.file)}"' if file else match[0]

    content = SPAN.sub(lambda match: match[0].replace("::", "::<wbr>"), DOTLESS.sub(led, content))
    contents[page.file.url] = content
    return content


def lost(address, addresses, ids):
    """Yields the links and pictures of a page that lead nowhere."""
    for link in ADDRESS.findall(contents[address]):
        target, _, heading = unquote(html.unescape(link)).partition("#")
        path = posixpath.normpath(posixpath.join(posixpath.dirname(address), target)) if target else address
        if not re.match(r"[a-z]+:", link) and (path not in addresses or heading and heading not in ids.get(path, ())):
            yield link


def on_env(env, config, files):
    """Says which links lead nowhere, once all pages have their content."""
    addresses = {unquote(file.url) for file in files}
    ids = {address: set(ID.findall(content)) for address, content in contents.items()}
    for address in contents:
        for link in lost(address, addresses, ids):
            log.warning(f"{address} links to {link}, which is not there")
    return env


@functools.lru_cache(None)
def lexer_of_ending(ending):
    try:
        return get_lexer_for_filename(f"file{ending}")
    except ClassNotFound:
        return TextLexer()


def code_of(file):
    """Returns the highlighted text of a file, or links to the files of a folder."""
    if os.path.isdir(file.abs_src_path):
        names = [os.path.relpath(it, file.abs_src_path) for it in files_below(file.src_uri)]
        return f"<ul>{''.join(f'<li><a href={name}.html><code>{name}</code></a></li>' for name in names)}</ul>"
    with open(file.abs_src_path, encoding="utf-8") as source:
        text = source.read()
    lexer = guess_lexer(text) if text.startswith("#!") else lexer_of_ending(posixpath.splitext(file.src_uri)[1])
    return re.sub(r'="(#?L)-', r'="\1', pygments.highlight(text, lexer, FORM))


def on_page_context(context, page, config, nav):
    """Adds the code to its page, which the search has read by now."""
    if isinstance(page.file, Code):
        page.content += code_of(page.file)
    return context
