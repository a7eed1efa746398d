"""Files that a tool writes: never over what it reads, and whole or not at all. A module."""

import errno
import os
import tempfile
from collections.abc import Iterable
from contextlib import suppress


def is_same(path: str, other: str) -> bool:
    """Whether two names lead to one file, by links of any kind; files needn't be there."""
    try:
        return os.path.samefile(path, other)
    except OSError:
        return os.path.realpath(path) == os.path.realpath(other)


def fault(path: str, inputs: Iterable[str | None], option: str = "--output") -> str | None:
    """What is wrong with a file that an option names to be written, by what a run reads; None if
    nothing is."""
    if any(it and is_same(path, it) for it in inputs):
        return f"{path}: the output would replace a file that is read: name another after {option}"
    with suppress(OSError):
        if os.path.samestat(os.stat(path), os.fstat(1)):
            return f"{path}: standard output goes into this file: name another after {option}"
    return None


def place_of(path: str) -> str:
    """What is written by a name: where a link leads, or the link itself if it leads nowhere."""
    folder, name = os.path.split(path)
    is_there = os.path.exists(path)
    return os.path.realpath(path) if is_there else os.path.join(os.path.realpath(folder), name)


def unwritable(path: str) -> OSError | None:
    """Why a file can't be written, as far as that is known before."""
    folder = os.path.dirname(place_of(path))
    if os.path.isdir(path):
        return OSError(errno.EISDIR, "is a directory")
    if os.path.exists(path) and not os.path.isfile(path):
        return OSError(errno.EINVAL, "is no regular file")
    if os.access(folder, os.W_OK | os.X_OK):
        return None
    number = errno.EACCES if os.path.isdir(folder) else errno.ENOENT
    return OSError(number, os.strerror(number))


def put(path: str, content: bytes) -> None:
    """Puts a file by a draft beside it, which takes its place once it is whole; OSError if it can't
    be written. A file that is there keeps its permissions, and a link stays one unless it leads
    nowhere."""
    if wrong := unwritable(path):
        raise wrong
    path = place_of(path)
    number, draft = tempfile.mkstemp(prefix=".cave-draft-", dir=os.path.dirname(path))
    try:
        with open(number, "wb") as file:
            file.write(content)
        os.chmod(draft, permissions(path))
        os.replace(draft, path)
    except BaseException:
        with suppress(FileNotFoundError):
            os.remove(draft)
        raise


def permissions(path: str) -> int:
    """Those of a file, or if it isn't there those that a new one gets."""
    if os.path.exists(path):
        return os.stat(path).st_mode & 0o777
    mask = os.umask(0)
    os.umask(mask)
    return 0o666 & ~mask
