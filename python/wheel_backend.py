"""Packs `busvroh` as a wheel for `pip install .`: the build backend that pyproject.toml names. Needs nothing to be installed."""

import base64
import hashlib
import zipfile
from pathlib import Path

NAME, VERSION = "busvroh", "0.1.0"
HERE = Path(__file__).resolve().parent

METADATA = f"""\
Metadata-Version: 2.1
Name: {NAME}
Version: {VERSION}
Summary: Decoders for sinter, detector error models, codes and shots around the exact decoder fusion
Requires-Python: >=3.9
"""

WHEEL = """\
Wheel-Version: 1.0
Generator: wheel_backend
Root-Is-Purelib: true
Tag: py3-none-any
"""


def build_wheel(wheel_directory, config_settings=None, metadata_directory=None):
    files = {str(file.relative_to(HERE)): file.read_bytes() for file in sorted((HERE / NAME).glob("*.py"))}
    return write_wheel(wheel_directory, files)


def build_editable(wheel_directory, config_settings=None, metadata_directory=None):
    """A wheel that leads to this folder, for `pip install -e .`."""
    return write_wheel(wheel_directory, {f"{NAME}.pth": f"{HERE}\n".encode()})


def build_sdist(sdist_directory, config_settings=None):
    raise NotImplementedError("install from a clone of the repository")


def write_wheel(folder, files):
    info = f"{NAME}-{VERSION}.dist-info"
    files = {**files, f"{info}/METADATA": METADATA.encode(), f"{info}/WHEEL": WHEEL.encode()}
    record = "".join(f"{name},sha256={checksum(text)},{len(text)}\n" for name, text in files.items())
    wheel = f"{NAME}-{VERSION}-py3-none-any.whl"
    with zipfile.ZipFile(Path(folder) / wheel, "w", zipfile.ZIP_DEFLATED) as packed:
        for name, text in files.items():
            packed.writestr(name, text)
        packed.writestr(f"{info}/RECORD", f"{record}{info}/RECORD,,\n")
    return wheel


def checksum(text):
    return base64.urlsafe_b64encode(hashlib.sha256(text).digest()).rstrip(b"=").decode()
