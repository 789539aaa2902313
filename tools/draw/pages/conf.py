"""How Sphinx makes the reference of the package for Python."""
import os

project = "yarrowdoor"
version = release = os.environ.get("YARROWDOOR_VERSION", "")
copyright = "MIT or Apache-2.0"
extensions = ["sphinx.ext.autodoc"]
autodoc_member_order = "bysource"
autodoc_typehints = "signature"
# The types that the package names are shown by these names, and not in full.
autodoc_type_aliases = {name: name for name in (
    "AddressLike", "Buffer", "Connected", "CredentialsLike", "Pair", "Receiver", "SocketAddress", "SocketName", "Text",
)}
python_use_unqualified_type_names = True
autodoc_preserve_defaults = True
# A name between single backticks is code, as in Markdown.
default_role = "code"
html_theme = "alabaster"
html_theme_options = {
    "description": "A formally verified TURN client", "fixed_sidebar": True, "page_width": "1200px", "sidebar_width": "300px",
}
html_sidebars = {"**": ["about.html", "searchbox.html", "localtoc.html"]}
html_last_updated_fmt = None
html_show_sphinx = False
# The theme reads custom.css from there.
html_static_path = ["custom.css"]
# A page that is opened as a file may not read another one.
html_show_search_summary = False
# The package has no links to other projects' pages.
nitpicky = False


def mark_code(_app, _what, _name, _object, _options, lines):
    """Lines that are indented behind an empty one are code: it is said so by two colons before them."""
    marked = []
    for at, line in enumerate(lines):
        begins = line.startswith("    ") and at > 0 and not lines[at - 1].strip()
        if begins and not (marked and any(it.startswith("    ") for it in marked[-2:])):
            marked += ["::", ""]
        marked.append(line)
    lines[:] = marked


def setup(app):
    app.connect("autodoc-process-docstring", mark_code)
