"""Names differences between CHANGELOG.md and `cave --version`.

The newest version of the page has to be the one in the code. The page has `[Unreleased]` first, and
then each version with its day, below which stand its changes.
"""

from collections.abc import Iterator

from common import versions

FIRST = "[Unreleased]"


def faults() -> Iterator[str]:
    sections, version = versions.sections(), versions.of_program()
    if [it.heading for it in sections[:1]] != [FIRST]:
        yield f"{versions.PAGE}: the first heading isn't `## {FIRST}`"
    for heading, number, _, changes in sections[1:]:
        if not number:
            yield f"{versions.PAGE}: `## {heading}` isn't as `## [1.0] - 2026-11-28`"
        elif not changes:
            yield f"{versions.PAGE}: {number} has no change"
    newest = next((it.version for it in versions.releases()), "none")
    if newest != version:
        yield f"{versions.PAGE}: the newest version is {newest}, and {versions.CODE} has {version}"
