"""Builds the wheel of the module `silo` for pip, which so needs nothing from the network: see pyproject.toml."""
import base64
import hashlib
import os
import zipfile

HERE = os.path.dirname(os.path.abspath(__file__))
NAME = "silo-1.0"
METADATA = "Metadata-Version: 2.1\nName: silo\nVersion: 1.0\nSummary: Requests and reports of a silo from Python\nLicense: MIT\nRequires-Python: >=3.8\n"
WHEEL = "Wheel-Version: 1.0\nGenerator: silo\nRoot-Is-Purelib: true\nTag: py3-none-any\n"


def files():
    """The files of the wheel, but for the list of them."""
    with open(os.path.join(HERE, "silo.py"), "rb") as file:
        yield "silo.py", file.read()
    yield f"{NAME}.dist-info/METADATA", METADATA.encode()
    yield f"{NAME}.dist-info/WHEEL", WHEEL.encode()


def build_wheel(wheel_directory, config_settings=None, metadata_directory=None):
    made, rows = f"{NAME}-py3-none-any.whl", []
    with zipfile.ZipFile(os.path.join(wheel_directory, made), "w", zipfile.ZIP_DEFLATED) as wheel:
        for name, held in files():
            wheel.writestr(zipfile.ZipInfo(name), held)
            digest = base64.urlsafe_b64encode(hashlib.sha256(held).digest()).rstrip(b"=").decode()
            rows.append(f"{name},sha256={digest},{len(held)}\n")
        wheel.writestr(zipfile.ZipInfo(f"{NAME}.dist-info/RECORD"), "".join(rows) + f"{NAME}.dist-info/RECORD,,\n")
    return made


def build_sdist(sdist_directory, config_settings=None):
    raise NotImplementedError("there is a wheel alone")
