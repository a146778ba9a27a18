"""The help texts that the program prints, as its source has them."""

import os
import re

SOURCE = os.path.join(os.path.dirname(os.path.dirname(os.path.abspath(__file__))), "crates", "vault_words", "src", "texts.rt")
CONSTANT = re.compile(r'^pub const (\w+): &str = "(.*?)";$', re.M | re.S)
ESCAPES = {"n": "\n", '"': '"', "\\": "\\", "\n": ""}


def texts():
    """Each text by its constant's name: HELP, a command's (SERVE_HELP, ..) and VERSION."""
    with open(SOURCE, encoding="utf-8") as file:
        found = CONSTANT.findall(file.read())
    return {name: re.sub(r"\\(.)", lambda it: ESCAPES[it[1]], text, flags=re.S) for name, text in found}
