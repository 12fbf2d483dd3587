"""Makes the wheel, of Python's own library alone: the package, the shared library in it, and its lists in a zip.

    pip wheel --no-deps --no-index bindings/python      after `make`; or PUIGNEHT_LIBRARY names the shared library
"""
from __future__ import annotations

import base64
import hashlib
import os
import pathlib
import re
import sysconfig
import zipfile

HERE = pathlib.Path(__file__).resolve().parent
VERSION, = re.findall(r'^VERSION = "(.*)"$', (HERE / "puigneht" / "_calls.py").read_text(encoding="utf-8"), re.M)
TAG = "py3-none-" + re.sub("[-.]", "_", sysconfig.get_platform())
INFO = f"puigneht-{VERSION}.dist-info"


def _library() -> bytes:
    path = pathlib.Path(os.environ.get("PUIGNEHT_LIBRARY") or HERE.parent.parent / "target" / f"libpuigneht.so.{VERSION}")
    if not path.is_file():
        raise SystemExit(f"There is no {path}: `make` builds it, or PUIGNEHT_LIBRARY names it")
    return path.read_bytes()


def _metadata() -> bytes:
    text = (HERE / "README.md").read_text(encoding="utf-8")
    return (f"Metadata-Version: 2.1\nName: puigneht\nVersion: {VERSION}\nSummary: One-bit audio (DSD64) to 24-bit PCM, proved\n"
            f"Requires-Python: >=3.9\nDescription-Content-Type: text/markdown\n\n{text}").encode()


def _files() -> dict[str, bytes]:
    files = {f"puigneht/{path.name}": path.read_bytes() for path in sorted((HERE / "puigneht").iterdir()) if path.suffix == ".py"}
    files["puigneht/py.typed"] = b""
    files["puigneht/libpuigneht.so"] = _library()
    files[f"{INFO}/METADATA"] = _metadata()
    files[f"{INFO}/NOTICE"] = (HERE.parent.parent / "NOTICE").read_bytes()
    files[f"{INFO}/WHEEL"] = f"Wheel-Version: 1.0\nGenerator: puigneht\nRoot-Is-Purelib: false\nTag: {TAG}\n".encode()
    return files


def _row(path: str, data: bytes) -> str:
    digest = base64.urlsafe_b64encode(hashlib.sha256(data).digest()).rstrip(b"=").decode()
    return f"{path},sha256={digest},{len(data)}\n"


def build_wheel(wheel_directory: str, config_settings: object = None, metadata_directory: str | None = None) -> str:
    files = _files()
    files[f"{INFO}/RECORD"] = ("".join(_row(*file) for file in files.items()) + f"{INFO}/RECORD,,\n").encode()
    name = f"puigneht-{VERSION}-{TAG}.whl"
    with zipfile.ZipFile(pathlib.Path(wheel_directory) / name, "w") as wheel:
        for path, data in files.items():
            entry = zipfile.ZipInfo(path, (1980, 1, 1, 0, 0, 0))
            entry.external_attr = (0o755 if path.endswith(".so") else 0o644) << 16
            entry.compress_type = zipfile.ZIP_DEFLATED
            wheel.writestr(entry, data)
    return name
