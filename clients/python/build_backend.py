"""Builds the wheel by the standard library and a C compiler alone, so that `pip install .` fetches nothing (PEP 517).

$CC, or cc, compiles the extension for the limited API: one wheel serves each Python from 3.8 on. $PROJECT_URL is the
address of the repository's files, if they have one: the metadata then link to it.
"""
from __future__ import annotations

import base64
import hashlib
import os
import re
import shlex
import stat
import subprocess
import sys
import sysconfig
import tempfile
import zipfile
from typing import Dict, List, Optional

HERE = os.path.dirname(os.path.abspath(__file__))
PACKAGE = os.path.join(HERE, "lcrvm")
TOP = os.path.join(HERE, "..", "..")
HEADERS = os.path.join(TOP, "include")
PROGRAM = os.path.join(HERE, "scripts", "lcrvm")
LIBRARY = "liblcrvm.so.0"
EXTENSION = "_lcrvm.abi3.so"
KEPT = (".py", ".pyi", "py.typed", LIBRARY)
LICENSES = ("LICENSE-MIT", "LICENSE-APACHE")


def _content(path: str) -> bytes:
    with open(path, "rb") as file:
        return file.read()


def _version() -> str:
    found = re.search(rb'^__version__ = "(.+)"$', _content(os.path.join(PACKAGE, "__init__.py")), re.MULTILINE)
    if found is None:
        raise SystemExit("lcrvm/__init__.py has no __version__")
    return found[1].decode()


VERSION = _version()
INFO = f"lcrvm-{VERSION}.dist-info"
PLATFORM = re.sub("[-.]", "_", sysconfig.get_platform())
README = os.path.join(TOP, "README.md")
URL = os.environ.get("PROJECT_URL", "").rstrip("/")
METADATA = f"""Metadata-Version: 2.4
Name: lcrvm
Version: {VERSION}
Summary: Recoverable virtual memory: transactions on bytes that outlive a crash
Keywords: transactions,durable,persistent,recovery,storage
Classifier: Development Status :: 4 - Beta
Classifier: Environment :: Console
Classifier: Intended Audience :: Developers
Classifier: Operating System :: POSIX :: Linux
Classifier: Programming Language :: C
Classifier: Programming Language :: Python :: 3
Classifier: Programming Language :: Python :: 3 :: Only
Classifier: Programming Language :: Python :: Implementation :: CPython
Classifier: Topic :: Database
Classifier: Topic :: Software Development :: Libraries
Classifier: Typing :: Typed
License-Expression: MIT OR Apache-2.0
License-File: LICENSE-MIT
License-File: LICENSE-APACHE
Requires-Python: >=3.8
Description-Content-Type: text/markdown
"""
# A link of the README to a file of the repository.
LINK = re.compile(r"\[([^][]*)\]\((?![a-z]+:|#)([^)]*)\)")


def _need(path: str, what: str) -> None:
    if not os.path.exists(path):
        raise SystemExit(f"{path} is missing: {what}")


def _compile(to: str) -> None:
    """Compiles the extension, which finds the library beside it."""
    python = sysconfig.get_paths()["include"]
    _need(os.path.join(PACKAGE, LIBRARY), "`make python` at the top of the repository puts it there")
    _need(os.path.join(HEADERS, "lcrvm.h"), "the package is built within the repository")
    _need(os.path.join(python, "Python.h"), "install the headers of this Python, as by the package python3-dev")
    command = [
        *shlex.split(os.environ.get("CC") or "cc"),
        *("-std=c11", "-O2", "-Wall", "-Wextra", "-fPIC", "-fvisibility=hidden", "-shared", "-pthread"),
        *shlex.split(os.environ.get("CFLAGS", "")),
        *(f"-I{python}", f"-I{HEADERS}", os.path.join(PACKAGE, "_lcrvm.c"), os.path.join(PACKAGE, LIBRARY)),
        *("-Wl,-rpath,$ORIGIN,--disable-new-dtags", "-Wl,-z,relro,-z,now", "-lm", "-o", to),
    ]
    try:
        done = subprocess.run(command, stdout=sys.stderr).returncode
    except FileNotFoundError:
        raise SystemExit(f"there is no C compiler {command[0]}: install one, or name it by CC") from None
    if done != 0:
        raise SystemExit("the extension was not compiled: " + " ".join(command))


def _extension() -> bytes:
    with tempfile.TemporaryDirectory(prefix="lcrvm-build-") as folder:
        path = os.path.join(folder, EXTENSION)
        _compile(path)
        return _content(path)


def _is_binary(path: str) -> bool:
    return ".so" in path or "/scripts/" in path


def _platform(files: Dict[str, bytes]) -> str:
    """Returns the platform's tag: the newest version of glibc that the binaries among `files` name (PEP 600)."""
    wanted = [found for path, data in files.items() if _is_binary(path)
              for found in re.findall(rb"GLIBC_2\.(\d+)", data)]
    return f"manylinux_2_{max(map(int, wanted))}_{os.uname().machine}" if wanted else PLATFORM


def _metadata() -> bytes:
    """Returns the metadata with the README, whose links to files go below URL; without a URL they are their text."""
    _need(README, "the package is built within the repository")
    links = f"Project-URL: Source, {URL}\nProject-URL: Changes, {URL}/CHANGELOG.md\n" if URL else ""
    text = LINK.sub(rf"[\1]({URL}/\2)" if URL else r"\1", _content(README).decode())
    return f"{METADATA}{links}\n{text}".encode()


def _pack(folder: str, files: Dict[str, bytes]) -> str:
    """Writes a wheel of `files` and the program to `folder`; the same files make the same wheel."""
    _need(PROGRAM, "`make python` at the top of the repository puts it there")
    files[f"lcrvm-{VERSION}.data/scripts/lcrvm"] = _content(PROGRAM)
    tag = f"cp38-abi3-{_platform(files)}"
    name, record = f"lcrvm-{VERSION}-{tag}.whl", ""
    for text in LICENSES:
        _need(os.path.join(TOP, text), "the package is built within the repository")
        files[f"{INFO}/licenses/{text}"] = _content(os.path.join(TOP, text))
    files[f"{INFO}/METADATA"] = _metadata()
    files[f"{INFO}/WHEEL"] = f"Wheel-Version: 1.0\nGenerator: lcrvm\nRoot-Is-Purelib: false\nTag: {tag}\n".encode()
    for path, data in files.items():
        digest = base64.urlsafe_b64encode(hashlib.sha256(data).digest()).rstrip(b"=").decode()
        record += f"{path},sha256={digest},{len(data)}\n"
    files[f"{INFO}/RECORD"] = f"{record}{INFO}/RECORD,,\n".encode()
    with zipfile.ZipFile(os.path.join(folder, name), "w") as wheel:
        for path, data in files.items():
            entry = zipfile.ZipInfo(path)
            entry.external_attr = (stat.S_IFREG | (0o755 if _is_binary(path) else 0o644)) << 16
            wheel.writestr(entry, data, zipfile.ZIP_DEFLATED)
    return name


def build_wheel(folder: str, config_settings: object = None, metadata_directory: Optional[str] = None) -> str:
    names: List[str] = sorted(name for name in os.listdir(PACKAGE) if name.endswith(KEPT))
    files = {f"lcrvm/{name}": _content(os.path.join(PACKAGE, name)) for name in names}
    files[f"lcrvm/{EXTENSION}"] = _extension()
    return _pack(folder, files)


def build_editable(folder: str, config_settings: object = None, metadata_directory: Optional[str] = None) -> str:
    _compile(os.path.join(PACKAGE, EXTENSION))
    return _pack(folder, {"lcrvm.pth": f"{HERE}\n".encode()})


class UnsupportedOperation(Exception):
    """Says that a front end asks for a thing that cannot be had (PEP 517)."""


def build_sdist(folder: str, config_settings: object = None) -> str:
    raise UnsupportedOperation("there is no source distribution, since `make prove` alone builds the library within: "
                               "`make python` at the top of the repository builds the wheel")
