"""Packs the package for pip (PEP 517 and 660), which so needs nothing from elsewhere."""
import base64
import hashlib
import io
import os
import re
import tarfile
import zipfile

HERE = os.path.dirname(os.path.abspath(__file__))


def text_of(name):
    with open(os.path.join(HERE, name), encoding="utf-8") as it:
        return it.read()


def said(key):
    """What pyproject.toml says of the project."""
    return re.search(rf'^{key} = "(.*)"$', text_of("pyproject.toml"), re.M)[1]


NAME, VERSION = said("name"), said("version")
INFO = f"{NAME}-{VERSION}.dist-info"


def metadata():
    rows = {
        "Metadata-Version": "2.1",
        "Name": NAME,
        "Version": VERSION,
        "Summary": said("description"),
        "Requires-Python": said("requires-python"),
        "Description-Content-Type": "text/markdown",
    }
    kinds = re.findall(r'^    "(\w.* :: .*)",$', text_of("pyproject.toml"), re.M)
    lines = [f"{key}: {value}" for key, value in rows.items()] + [
        f"Classifier: {it}" for it in kinds
    ]
    return "\n".join(lines) + "\n\n" + text_of("README.md")


def package():
    """Each file of the package, with its bytes."""
    for file in sorted(os.listdir(os.path.join(HERE, NAME))):
        if file.endswith(".py") or file == "py.typed":
            with open(os.path.join(HERE, NAME, file), "rb") as it:
                yield f"{NAME}/{file}", it.read()


def wheel_of(folder, files):
    wheel = f"{NAME}-{VERSION}-py3-none-any.whl"
    files = [
        *files,
        (f"{INFO}/METADATA", metadata().encode()),
        (
            f"{INFO}/WHEEL",
            b"Wheel-Version: 1.0\nGenerator: packing\nRoot-Is-Purelib: true\nTag: py3-none-any\n",
        ),
    ]
    with zipfile.ZipFile(os.path.join(folder, wheel), "w", zipfile.ZIP_DEFLATED) as packed:
        record = ""
        for path, data in files:
            packed.writestr(path, data)
            sum_of = base64.urlsafe_b64encode(hashlib.sha256(data).digest()).rstrip(b"=").decode()
            record += f"{path},sha256={sum_of},{len(data)}\n"
        packed.writestr(f"{INFO}/RECORD", f"{record}{INFO}/RECORD,,\n")
    return wheel


def build_wheel(wheel_directory, config_settings=None, metadata_directory=None):
    return wheel_of(wheel_directory, package())


def build_editable(wheel_directory, config_settings=None, metadata_directory=None):
    return wheel_of(wheel_directory, [(f"__editable__.{NAME}.pth", f"{HERE}\n".encode())])


def build_sdist(sdist_directory, config_settings=None):
    root = f"{NAME}-{VERSION}"
    files = {name: text_of(name).encode() for name in ("pyproject.toml", "packing.py", "README.md")}
    with tarfile.open(os.path.join(sdist_directory, f"{root}.tar.gz"), "w:gz") as packed:
        for path, data in (*package(), *files.items(), ("PKG-INFO", metadata().encode())):
            entry = tarfile.TarInfo(f"{root}/{path}")
            entry.size = len(data)
            packed.addfile(entry, io.BytesIO(data))
    return f"{root}.tar.gz"
