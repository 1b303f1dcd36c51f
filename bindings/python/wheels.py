"""Builds the wheel of this folder, for pip: the package with the library that tools/staticlib built, and nothing from anywhere else.

The library is taken from ../lib, or from the folder that YENGATOMU_LIB_DIR names.
"""

import base64
import hashlib
import os
import re
import sysconfig
import zipfile

HERE = os.path.dirname(os.path.abspath(__file__))
LIBRARY = "libyengatomu.so.0"


class UnsupportedOperation(Exception):
    """What pip expects where there is no source distribution."""


def read(path):
    with open(path, "rb") as it:
        return it.read()


def project():
    """Returns the values of pyproject.toml that stand in quotes, by their keys."""
    return dict(re.findall(r'(?m)^([\w-]+) = "(.*)"$', read(f"{HERE}/pyproject.toml").decode()))


def library():
    """Returns the library's bytes."""
    path = os.path.join(os.environ.get("YENGATOMU_LIB_DIR") or os.path.normpath(f"{HERE}/../lib"), LIBRARY)
    if not os.path.isfile(path):
        raise SystemExit(f"yengatomu: {path} isn't there: tools/staticlib builds it, at the top of the repository")
    return read(path)


def metadata(said):
    head = [
        "Metadata-Version: 2.1",
        f"Name: {said['name']}",
        f"Version: {said['version']}",
        f"Summary: {said['description']}",
        f"Requires-Python: {said['requires-python']}",
        "License: Unicode-3.0",
        "Description-Content-Type: text/markdown",
    ]
    return "\n".join([*head, "", read(f"{HERE}/{said['readme']}").decode()]).encode()


def sum_of(data):
    return "sha256=" + base64.urlsafe_b64encode(hashlib.sha256(data).digest()).rstrip(b"=").decode()


def tag(settings):
    """Returns for which Python and machines the wheel is: those that the setting `platform` names, or such as this one."""
    return f"py3-none-{(settings or {}).get('platform') or re.sub('[-.]', '_', sysconfig.get_platform())}"


def build_wheel(wheel_directory, config_settings=None, metadata_directory=None):
    """Writes the wheel, and returns its name."""
    said = project()
    name, about = said["name"], f"{said['name']}-{said['version']}.dist-info"
    files = {f"{name}/{it}": read(f"{HERE}/{name}/{it}") for it in sorted(os.listdir(f"{HERE}/{name}")) if it.endswith((".py", ".typed"))}
    files[f"{name}/{LIBRARY}"] = library()
    files[f"{about}/LICENSE"] = read(f"{HERE}/../../LICENSE")
    files[f"{about}/METADATA"] = metadata(said)
    files[f"{about}/WHEEL"] = f"Wheel-Version: 1.0\nGenerator: {name}\nRoot-Is-Purelib: false\nTag: {tag(config_settings)}\n".encode()
    rows = [f"{path},{sum_of(data)},{len(data)}\n" for path, data in files.items()]
    files[f"{about}/RECORD"] = "".join([*rows, f"{about}/RECORD,,\n"]).encode()
    made = f"{name}-{said['version']}-{tag(config_settings)}.whl"
    with zipfile.ZipFile(os.path.join(wheel_directory, made), "w", zipfile.ZIP_DEFLATED) as it:
        for path, data in files.items():
            # (without the time, so that the same files make the same wheel)
            entry = zipfile.ZipInfo(path)
            entry.compress_type, entry.external_attr = zipfile.ZIP_DEFLATED, (0o755 if path.endswith(LIBRARY) else 0o644) << 16
            it.writestr(entry, data)
    return made


def build_sdist(sdist_directory, config_settings=None):
    raise UnsupportedOperation("there is no source distribution: the library is built from the repository")
