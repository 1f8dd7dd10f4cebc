"""Makes the wheel of this folder as pip asks for it (PEP 517), with the standard library alone: so no network is needed.

A shared library that lies beside the package as rv/librv.so.0 goes into the wheel.
"""

from __future__ import annotations

import base64
import hashlib
import io
import re
import tarfile
import zipfile
from pathlib import Path

HERE = Path(__file__).resolve().parent
PROJECT = (HERE / "pyproject.toml").read_text(encoding="utf-8")
SHARED = "librv.so.0"


def said(key: str) -> str:
    """What pyproject.toml says under a key."""
    found = re.search(rf'^{key} = (?:{{ text = )?"(.*?)"', PROJECT, re.M)
    if not found:
        raise ValueError(f"pyproject.toml has no {key}")
    return found[1]


NAME = f"{said('name')}-{said('version')}"
METADATA = f"""Metadata-Version: 2.1
Name: {said("name")}
Version: {said("version")}
Summary: {said("description")}
License: {said("license")}
Requires-Python: {said("requires-python")}
"""


def package() -> list[Path]:
    """The files of the package."""
    return [it for it in sorted((HERE / "rv").iterdir()) if it.suffix in (".py", ".typed") or it.name == SHARED]


def row(name: str, content: bytes) -> str:
    """The row of a file in RECORD."""
    digest = base64.urlsafe_b64encode(hashlib.sha256(content).digest()).rstrip(b"=").decode()
    return f"{name},sha256={digest},{len(content)}\n"


def build_wheel(wheel_directory: str, config_settings: object = None, metadata_directory: object = None) -> str:
    """Makes the wheel in a folder; its name."""
    tag = "py3-none-linux_x86_64" if (HERE / "rv" / SHARED).exists() else "py3-none-any"
    wheel = f"Wheel-Version: 1.0\nGenerator: rv\nRoot-Is-Purelib: {str(tag.endswith('any')).lower()}\nTag: {tag}\n"
    files = {f"rv/{it.name}": it.read_bytes() for it in package()}
    files[f"{NAME}.dist-info/METADATA"] = METADATA.encode()
    files[f"{NAME}.dist-info/WHEEL"] = wheel.encode()
    record = f"{NAME}.dist-info/RECORD"
    files[record] = ("".join(row(*it) for it in files.items()) + f"{record},,\n").encode()
    with zipfile.ZipFile(f"{wheel_directory}/{NAME}-{tag}.whl", "w", zipfile.ZIP_DEFLATED) as made:
        for name, content in files.items():
            made.writestr(name, content)
    return f"{NAME}-{tag}.whl"


def build_sdist(sdist_directory: str, config_settings: object = None) -> str:
    """Makes the archive of the sources in a folder; its name."""
    with tarfile.open(f"{sdist_directory}/{NAME}.tar.gz", "w:gz", format=tarfile.PAX_FORMAT) as made:
        for it in (HERE / "pyproject.toml", HERE / "backend.py", *package()):
            made.add(it, f"{NAME}/{it.relative_to(HERE)}")
        information = tarfile.TarInfo(f"{NAME}/PKG-INFO")
        information.size = len(METADATA.encode())
        made.addfile(information, io.BytesIO(METADATA.encode()))
    return f"{NAME}.tar.gz"
