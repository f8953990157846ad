"""Builds the package for pip, with the standard library alone.

pip asks a backend named by pyproject.toml for a wheel (PEP 517). This one needs nothing
to be downloaded, so the package installs where there is no network.
"""

from __future__ import annotations

import base64
import hashlib
import os
import re
import tarfile
import zipfile
from pathlib import Path
from typing import Any, Dict, List, Optional, Tuple

TOP = Path(__file__).resolve().parents[1]
PACKAGE = "ec_history"
_TIME = (1980, 1, 1, 0, 0, 0)
"""The time of all files in a wheel, so that the same files make the same wheel."""

Settings = Optional[Dict[str, Any]]


def build_wheel(
    wheel_directory: str,
    config_settings: Settings = None,
    metadata_directory: Optional[str] = None,
) -> str:
    """Writes the wheel into a folder; answers its name there."""
    name = f"{PACKAGE}-{_version()}-py3-none-any.whl"
    members = [(f"{PACKAGE}/{p.name}", p.read_bytes()) for p in _modules()]
    members += _metadata()
    rows = [f"{path},{_hash(data)},{len(data)}" for path, data in members]
    record = f"{_info()}/RECORD"
    members.append((record, "\n".join([*rows, f"{record},,", ""]).encode()))
    with zipfile.ZipFile(os.path.join(wheel_directory, name), "w") as wheel:
        for path, data in members:
            entry = zipfile.ZipInfo(path, _TIME)
            entry.external_attr = 0o644 << 16
            wheel.writestr(entry, data, zipfile.ZIP_DEFLATED)
    return name


def build_sdist(sdist_directory: str, config_settings: Settings = None) -> str:
    """Writes an archive of the sources into a folder; answers its name there."""
    stem = f"{PACKAGE}-{_version()}"
    name = f"{stem}.tar.gz"
    files = [TOP / "pyproject.toml", TOP / "README.md", Path(__file__), *_modules()]
    with tarfile.open(os.path.join(sdist_directory, name), "w:gz") as archive:
        for path in files:
            archive.add(path, f"{stem}/{path.relative_to(TOP).as_posix()}")
    return name


def _modules() -> List[Path]:
    return sorted((TOP / PACKAGE).glob("*.py"))


def _project(key: str) -> str:
    """The text of a key of pyproject.toml, which python3 reads from 3.11 on only."""
    text = (TOP / "pyproject.toml").read_text(encoding="utf-8")
    found = re.search(rf'^{re.escape(key)} = "(.*)"$', text, re.MULTILINE)
    assert found is not None, f"pyproject.toml has no {key}"
    return found.group(1)


def _version() -> str:
    return _project("version")


def _info() -> str:
    return f"{PACKAGE}-{_version()}.dist-info"


def _metadata() -> List[Tuple[str, bytes]]:
    """What a wheel says of itself."""
    readme = (TOP / "README.md").read_text(encoding="utf-8")
    about = (
        f"Metadata-Version: 2.1\nName: {PACKAGE}\nVersion: {_version()}\n"
        f"Summary: {_project('description')}\n"
        f"Requires-Python: {_project('requires-python')}\n"
        'Provides-Extra: cluster\nRequires-Dist: distributed; extra == "cluster"\n'
        f"Description-Content-Type: text/markdown\n\n{readme}"
    )
    kind = "Wheel-Version: 1.0\nGenerator: plain_wheel\nRoot-Is-Purelib: true\n"
    scripts = f"[console_scripts]\nec-history = {_project('ec-history')}\n"
    texts = {
        "METADATA": about,
        "WHEEL": f"{kind}Tag: py3-none-any\n",
        "entry_points.txt": scripts,
    }
    return [(f"{_info()}/{name}", text.encode()) for name, text in texts.items()]


def _hash(data: bytes) -> str:
    digest = base64.urlsafe_b64encode(hashlib.sha256(data).digest())
    return "sha256=" + digest.rstrip(b"=").decode()
