"""Packs the package `corv` with the map's shared library, for pip: hooks of PEP 517 and 660, with Python's own modules alone.

The library is that of CORV_LIBRARY, or else the one beside which tools/install has put this folder.
"""

import base64
import ctypes
import hashlib
import os
import sysconfig
import zipfile
from pathlib import Path

HERE = Path(__file__).resolve().parent


def library():
    """The shared library."""
    given = os.environ.get("CORV_LIBRARY")
    found = Path(given) if given else HERE.parents[2] / "lib/libcorv.so"
    if not found.is_file():
        raise SystemExit(
            "corv: the map's library isn't here. Install it first, by tools/install --prefix DIR, and then this package from "
            "DIR/share/corv/python; or name the library in CORV_LIBRARY."
        )
    return found.resolve()


def version():
    """The library's version, as it says it itself."""
    call = ctypes.CDLL(str(library())).corv_version
    call.restype = ctypes.c_char_p
    return call().decode()


def build_wheel(wheel_directory, config_settings=None, metadata_directory=None):
    """Writes the wheel, and returns its name."""
    files = {path.relative_to(HERE).as_posix(): path.read_bytes() for path in sorted((HERE / "corv").rglob("*.py"))}
    files["corv/libcorv.so"] = library().read_bytes()
    return write_wheel(Path(wheel_directory), files)


def build_editable(wheel_directory, config_settings=None, metadata_directory=None):
    """The same, but for the package's own files: these are taken from this folder."""
    text = f"import os, sys; sys.path.append({str(HERE)!r}); os.environ.setdefault('CORV_LIBRARY', {str(library())!r})\n"
    return write_wheel(Path(wheel_directory), {"corv-editable.pth": text.encode()})


def write_wheel(folder, files):
    """Writes a wheel of these files."""
    number = version()
    tag = "py3-none-" + sysconfig.get_platform().replace("-", "_").replace(".", "_")
    info = f"corv-{number}.dist-info"
    files[f"{info}/METADATA"] = (
        f"Metadata-Version: 2.1\nName: corv\nVersion: {number}\nLicense: MIT\nRequires-Python: >=3.8\n"
        "Summary: A robot's point map that is proved: an incremental k-d tree in whole millimetres\n"
    ).encode()
    files[f"{info}/WHEEL"] = f"Wheel-Version: 1.0\nGenerator: corv\nRoot-Is-Purelib: false\nTag: {tag}\n".encode()
    record = "".join(f"{name},sha256={checksum(data)},{len(data)}\n" for name, data in files.items())
    files[f"{info}/RECORD"] = f"{record}{info}/RECORD,,\n".encode()
    name = f"corv-{number}-{tag}.whl"
    with zipfile.ZipFile(folder / name, "w", zipfile.ZIP_DEFLATED) as wheel:
        for path, data in files.items():
            wheel.writestr(zipfile.ZipInfo(path, (2026, 1, 1, 0, 0, 0)), data, zipfile.ZIP_DEFLATED)
    return name


def checksum(data):
    """As RECORD has it."""
    return base64.urlsafe_b64encode(hashlib.sha256(data).digest()).rstrip(b"=").decode()
