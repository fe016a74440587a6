"""Functions that promise too much of a struct with a float."""

import re
from typing import Dict, List

# That bytes which were written are those that were read.
BACK = re.compile(r"take \w+ \S+\.new\S*\s*≡\s*take \w+ \S+\.now|take \w+ \S+\.now\S*\s*≡\s*take \w+ \S+\.new|fixed_size_is_written_back")
FUNCTION = re.compile(r"(?ms)^ *(?:pub(?:\([^)]*\))? )?fn (\w+).*?^ *\}$")


def too_much(texts: Dict[str, str], with_floats: List[str]) -> List[str]:
    """Returns a line for each function that says of such a struct that what was read is written back."""
    told = []
    for path, text in texts.items():
        for found in FUNCTION.finditer(text):
            names = [it for it in with_floats if re.search(rf"\b{it}\b", found[0])]
            if names and BACK.search(found[0]):
                line = text.count("\n", 0, found.start()) + 1
                told.append(
                    f"{path}:{line}: the function {found[1]} says that what was read of {names[0]} is written back, and {names[0]} has "
                    "a float: this isn't proved, since a NaN is written as the quiet one"
                )
    return told
