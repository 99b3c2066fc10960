"""Builds the package for pip, by the interface that PEP 517 has for it. The package is Python
alone, so a wheel is its files and three that describe it: that needs no other builder, so
`pip install ./python` asks no network. The numbers are those of pyproject.toml."""
from __future__ import annotations

import base64
import hashlib
import io
import re
import tarfile
import zipfile
from pathlib import Path
from typing import Any

HERE = Path(__file__).resolve().parent


def _told(key: str) -> str:
    """A line of pyproject.toml; Python 3.10 has no reader of its own for that."""
    text = (HERE / "pyproject.toml").read_text(encoding="utf-8")
    found = re.search(rf'^{key} = "([^"]*)"$', text, re.MULTILINE)
    if found is None:
        raise LookupError(f"pyproject.toml has no {key}")
    return found[1]


def _title() -> str:
    return f"{_told('name')}-{_told('version')}"


def _metadata() -> str:
    return (
        f"Metadata-Version: 2.1\nName: {_told('name')}\nVersion: {_told('version')}\n"
        f"Summary: {_told('description')}\nRequires-Python: {_told('requires-python')}\n"
        "Description-Content-Type: text/markdown\n\n"
        + (HERE / "README.md").read_text(encoding="utf-8")
    )


def _record(files: dict[str, bytes], name: str) -> bytes:
    """The list of all files with their hashes, as a wheel has it."""
    lines = []
    for path, content in files.items():
        digest = base64.urlsafe_b64encode(hashlib.sha256(content).digest()).rstrip(b"=").decode()
        lines.append(f"{path},sha256={digest},{len(content)}\n")
    return "".join([*lines, f"{name},,\n"]).encode()


def _wheel_files() -> dict[str, bytes]:
    package = HERE / "geosvm"
    paths = sorted([*package.glob("*.py"), package / "py.typed"])
    files = {f"geosvm/{path.name}": path.read_bytes() for path in paths}
    info = f"{_title()}.dist-info"
    files[f"{info}/METADATA"] = _metadata().encode()
    files[f"{info}/WHEEL"] = (
        b"Wheel-Version: 1.0\nGenerator: build_package\n"
        b"Root-Is-Purelib: true\nTag: py3-none-any\n"
    )
    files[f"{info}/RECORD"] = _record(files, f"{info}/RECORD")
    return files


def build_wheel(wheel_directory: str, config_settings: Any = None,
                metadata_directory: str | None = None) -> str:
    """Writes the wheel into the folder, and gives its name."""
    name = f"{_title()}-py3-none-any.whl"
    with zipfile.ZipFile(Path(wheel_directory) / name, "w", zipfile.ZIP_DEFLATED) as wheel:
        for path, content in _wheel_files().items():
            wheel.writestr(path, content)
    return name


def build_sdist(sdist_directory: str, config_settings: Any = None) -> str:
    """Writes the sources into the folder, and gives the name of their archive."""
    name = f"{_title()}.tar.gz"
    with tarfile.open(Path(sdist_directory) / name, "w:gz", format=tarfile.PAX_FORMAT) as archive:
        described = tarfile.TarInfo(f"{_title()}/PKG-INFO")
        described.size = len(_metadata().encode())
        archive.addfile(described, io.BytesIO(_metadata().encode()))
        for path in ["pyproject.toml", "build_package.py", "README.md", "geosvm", "tests"]:
            archive.add(HERE / path, f"{_title()}/{path}",
                        filter=lambda it: None if "__pycache__" in it.name else it)
    return name
