"""Makes a page of one file by Jinja2: styles, scripts and data are in it, and nothing is taken from a network."""
import base64
import hashlib
import json
import os
import re

from jinja2 import Environment, FileSystemLoader, StrictUndefined
from markupsafe import Markup

from reporting import text

SHORT_NAME = 16  # letters
FOLDER = os.path.dirname(os.path.abspath(__file__))
FUNCTION = '(() => {{\n"use strict";\n\n{}}})();\n'  # all scripts of a page are in one function, and see each other's names
# What could end the element that the data is in, or what older scripts take for the end of a line.
ESCAPES = {ord(it): f"\\u{ord(it):04x}" for it in "<>&\u2028\u2029"}


def breakable(name):
    """A name that may go on in a new line behind each of its parts, where it is long."""
    parts = re.split(r"(?<=[/._-])(?=[^/._-])", text.shown(name))
    return Markup("<wbr>").join(parts if len(name) > SHORT_NAME else ["".join(parts)])


def json_text(data):
    """Data as JSON that may be in an element of a page."""
    return Markup(json.dumps(data, separators=(",", ":")).translate(ESCAPES))


def source_of(names):
    """The text of files beside this one, which are in the page as they are."""
    parts = []
    for name in names:
        with open(os.path.join(FOLDER, name), encoding="utf-8") as file:
            parts.append(file.read())
    return "\n".join(parts)


def digest_of(source):
    """The name by which a policy allows a style or a script."""
    return "'sha256-" + base64.b64encode(hashlib.sha256(source.encode()).digest()).decode() + "'"


def policy_of(style, script):
    """The page may run its own script and use its own style, and load nothing."""
    return f"default-src 'none'; style-src {digest_of(style)}; script-src {digest_of(script)}; base-uri 'none'; form-action 'none'"


def render(template, scripts, view):
    """The text of a page."""
    environment = Environment(
        loader=FileSystemLoader(FOLDER), autoescape=True, undefined=StrictUndefined, trim_blocks=True, lstrip_blocks=True
    )
    names = ("shown", "number", "plural", "duration", "exact", "rounded", "size", "date")
    environment.filters |= {name: getattr(text, name) for name in names} | {"breakable": breakable}
    style, script = source_of(["page.css"]), FUNCTION.format(source_of(scripts))
    assets = {"style": Markup(style), "script": Markup(script), "policy": policy_of(style, script)}
    return environment.get_template(template).render(**view, **assets)


def write_page(path, page):
    """Writes a page in one piece, so that whoever opens it meanwhile has the old one."""
    with open(f"{path}.new", "w", encoding="utf-8") as file:
        file.write(page)
    os.replace(f"{path}.new", path)
