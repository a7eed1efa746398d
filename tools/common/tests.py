"""Tests of `unittest` that are made of cases, as a module. A script ends with `unittest.main()`,
and then runs those alone that have WORD in their names if it is called with `-k WORD`."""

import re
import unittest
from collections.abc import Callable, Iterable

Test = Callable[[unittest.TestCase], None]


def class_of(name: str, tests: Iterable[tuple[str, Test]]) -> type[unittest.TestCase]:
    """A class with one test for each case, so that one can be run alone by its name."""
    named = ((f"{at:02} {name}", test) for at, (name, test) in enumerate(tests))
    plain = {"test_" + re.sub(r"\W+", "_", it).strip("_")[:60]: test for it, test in named}
    return type(re.sub(r"\W", "_", name).title(), (unittest.TestCase,), dict[str, object](plain))
