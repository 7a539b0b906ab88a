"""Makes a wheel of the client for pip, by the standard library alone: to install it no other package is needed."""

import base64
import hashlib
import os
import re
import tarfile
import zipfile

HERE = os.path.dirname(os.path.realpath(__file__))
FILES = ["comfreystair.py", "make_wheel.py", "pyproject.toml", "README.md"]


def read(name):
    with open(os.path.join(HERE, name), encoding="utf-8") as file:
        return file.read()


def project():
    """What pyproject.toml says of the project."""
    return dict(re.findall(r'^([a-z-]+) = "(.*)"$', read("pyproject.toml"), re.MULTILINE))


def build_wheel(wheel_directory, config_settings=None, metadata_directory=None):
    told = project()
    name, version = told["name"], told["version"]
    info = f"{name}-{version}.dist-info"
    metadata = (
        f"Metadata-Version: 2.1\nName: {name}\nVersion: {version}\nSummary: {told['description']}\n"
        f"Requires-Python: {told['requires-python']}\nDescription-Content-Type: text/markdown\n\n{read('README.md')}"
    )
    tag = "Wheel-Version: 1.0\nGenerator: make_wheel\nRoot-Is-Purelib: true\nTag: py3-none-any\n"
    record = ""
    path = f"{name}-{version}-py3-none-any.whl"
    with zipfile.ZipFile(os.path.join(wheel_directory, path), "w", zipfile.ZIP_DEFLATED) as wheel:
        for file, text in (
            (f"{name}.py", read(f"{name}.py")),
            (f"{info}/METADATA", metadata),
            (f"{info}/WHEEL", tag),
        ):
            data = text.encode()
            digest = base64.urlsafe_b64encode(hashlib.sha256(data).digest()).rstrip(b"=").decode()
            record += f"{file},sha256={digest},{len(data)}\n"
            wheel.writestr(file, data)
        wheel.writestr(f"{info}/RECORD", record + f"{info}/RECORD,,\n")
    return path


def build_sdist(sdist_directory, config_settings=None):
    told = project()
    base = f"{told['name']}-{told['version']}"
    with tarfile.open(os.path.join(sdist_directory, base + ".tar.gz"), "w:gz") as sdist:
        for file in FILES:
            sdist.add(os.path.join(HERE, file), f"{base}/{file}")
    return base + ".tar.gz"
