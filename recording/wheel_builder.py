"""A build backend for pip that builds the wheel with the standard library alone."""

import base64
import hashlib
import os
import pathlib
import re
import zipfile
from typing import Any, Dict, List, Optional, Sequence

HERE = pathlib.Path(__file__).resolve().parent
PACKAGE = "casbench_recording"
VERSION = "0.1.0"
FOLDER = f"{PACKAGE}-{VERSION}.dist-info"

METADATA = f"""Metadata-Version: 2.1
Name: casbench-recording
Version: {VERSION}
Summary: Records what clients ask of a store, and what it answers, as history texts for casbench
License: Apache-2.0
Classifier: License :: OSI Approved :: Apache Software License
Requires-Python: >=3.9
"""

# Copies of the files at the top of the checkout, since pip may build this folder alone.
LICENSES = ("LICENSE", "NOTICE")

WHEEL = """Wheel-Version: 1.0
Generator: wheel_builder
Root-Is-Purelib: true
Tag: py3-none-any
"""


def is_command(file: pathlib.Path) -> bool:
    """Returns whether a file is that of a command: a top-level module with a function `main`, or a
    `__main__.py`."""
    has_main = re.search(r"^def main\(", file.read_text(encoding="utf-8"), re.MULTILINE) is not None
    return file.name == "__main__.py" or has_main and file.parent.name == PACKAGE


def entry_points(files: Sequence[pathlib.Path]) -> str:
    """Returns the commands that pip installs: `casbench-stand-in` for the package `stand_in`."""
    names = sorted(it.parent.name if it.name == "__main__.py" else it.stem for it in files if is_command(it))
    rows = (f"casbench-{it.replace('_', '-')} = {PACKAGE}.{it}:main\n" for it in names)
    return "[console_scripts]\n" + "".join(rows)


def contents() -> Dict[str, bytes]:
    """Returns the files of the wheel, without the list of them."""
    files = sorted(it for it in (HERE / PACKAGE).rglob("*") if it.suffix == ".py" or it.name == "py.typed")
    found = {it.relative_to(HERE).as_posix(): it.read_bytes() for it in files}
    metadata = {"METADATA": METADATA, "WHEEL": WHEEL, "entry_points.txt": entry_points(files)}
    found.update({f"{FOLDER}/{name}": text.encode() for name, text in metadata.items()})
    return {**found, **{f"{FOLDER}/{name}": (HERE / name).read_bytes() for name in LICENSES}}


def row_of(name: str, content: bytes) -> str:
    """Returns the row of a file in the list."""
    digest = base64.urlsafe_b64encode(hashlib.sha256(content).digest()).rstrip(b"=").decode()
    return f"{name},sha256={digest},{len(content)}\n"


def build_wheel(
    wheel_directory: str,
    config_settings: Optional[Dict[str, Any]] = None,
    metadata_directory: Optional[str] = None,
) -> str:
    """Writes the wheel into the directory; returns its name."""
    name, files = f"{PACKAGE}-{VERSION}-py3-none-any.whl", contents()
    rows: List[str] = [row_of(*it) for it in files.items()] + [f"{FOLDER}/RECORD,,\n"]
    with zipfile.ZipFile(os.path.join(wheel_directory, name), "w", zipfile.ZIP_DEFLATED) as wheel:
        for path, content in {**files, f"{FOLDER}/RECORD": "".join(rows).encode()}.items():
            wheel.writestr(path, content)
    return name
