"""Builds the package as pip asks for it (PEP 517), by the compiler that Python names and nothing else: so it needs neither a network nor setuptools.

The library's archive is the one in the folder of the environment's SCQ_LIB_DIR; else that of this folder, as dist/install and a source package have
it; else the repository's. With SCQ_LINK=shared it is the shared object, of SCQ_LIB_DIR or of where pkg-config says.

A wheel for another processor is built as CPython's own modules are, by a Python of the same version here: PYTHONPATH and _PYTHON_SYSCONFIGDATA_NAME
name the _sysconfigdata file of the Python there, _PYTHON_HOST_PLATFORM is linux-aarch64, and CFLAGS has -I for the headers of that Python; then
`pip wheel --no-build-isolation`. bench/aarch64 does so, by Debian's packages.
"""

import base64
import hashlib
import io
import os
import re
import shlex
import subprocess
import sys
import sysconfig
import tarfile
import tempfile
import zipfile
from pathlib import Path

HERE = Path(__file__).resolve().parent
TOP = HERE.parent.parent
SOURCES = ["pyproject.toml", "build.py", "scq/__init__.py", "scq/_scq.c", "scq/py.typed", "tests/test_queue.py"]


def noted(name):
    """What stands in pyproject.toml for a name."""
    return re.search(rf'^{name} = "(.*)"$', (HERE / "pyproject.toml").read_text(), re.M)[1]


def metadata():
    return (
        f"Metadata-Version: 2.1\nName: scq\nVersion: {noted('version')}\n"
        f"Summary: {noted('description')}\nRequires-Python: {noted('requires-python')}\n"
    )


def found(what, *folders):
    """This file, in the first of these folders that has it."""
    for folder in folders:
        if (Path(folder) / what).exists():
            return Path(folder) / what
    raise FileNotFoundError(f"no {what} in {', '.join(map(str, folders))}")


def pkg_config(*words):
    return shlex.split(subprocess.run(["pkg-config", *words, "scq"], check=True, capture_output=True, text=True).stdout)


def header(name):
    return found(name, HERE / "include", TOP / "bindings" / "c")


def machine():
    """The processor that is built for."""
    return sysconfig.get_platform().split("-")[-1]


def archive(processor):
    return found("libscq.a", HERE / "lib" / f"{processor}-linux", TOP / "dist" / f"{processor}-linux")


def linked():
    """What the compiler is told of the library: where its headers are, and it."""
    folder = os.environ.get("SCQ_LIB_DIR")
    shared = os.environ.get("SCQ_LINK") == "shared"
    if shared and not folder:
        return pkg_config("--cflags"), pkg_config("--libs")
    includes = [f"-I{header('scq_bell.h').parent}"]
    if shared:
        return includes, [f"-L{folder}", "-lscq"]
    return includes, [str(found("libscq.a", folder) if folder else archive(machine()))]


def variable(name):
    return shlex.split(sysconfig.get_config_var(name) or "")


def compiled(to):
    includes, library = linked()
    paths = {sysconfig.get_path("include"), sysconfig.get_path("platinclude")}
    includes += [f"-I{path}" for path in paths]
    compiler = shlex.split(os.environ.get("CC", "")) or variable("CC")
    flags = variable("CFLAGS") + shlex.split(os.environ.get("CFLAGS", "")) + variable("CCSHARED")
    linker = variable("LDSHARED")[1:] + shlex.split(os.environ.get("LDFLAGS", ""))
    with tempfile.TemporaryDirectory() as folder:
        made = f"{folder}/_scq.o"
        source = str(HERE / "scq" / "_scq.c")
        subprocess.run([*compiler, *flags, *includes, "-c", source, "-o", made], check=True)
        subprocess.run([*compiler, *linker, made, *library, "-o", str(to)], check=True)


def tag():
    version = f"cp{sys.version_info[0]}{sys.version_info[1]}"
    kind = "t" if "t" in (sysconfig.get_config_var("ABIFLAGS") or "") else ""
    platform = re.sub("[-.]", "_", sysconfig.get_platform())
    return f"{version}-{version}{kind}-{platform}"


def build_wheel(wheel_directory, config_settings=None, metadata_directory=None):
    name = f"scq-{noted('version')}"
    wheel = f"{name}-{tag()}.whl"
    with tempfile.TemporaryDirectory() as folder:
        made = Path(folder) / f"_scq{sysconfig.get_config_var('EXT_SUFFIX')}"
        compiled(made)
        files = {f"scq/{made.name}": made.read_bytes()}
    for file in ("__init__.py", "py.typed"):
        files[f"scq/{file}"] = (HERE / "scq" / file).read_bytes()
    files[f"{name}.dist-info/METADATA"] = metadata().encode()
    files[f"{name}.dist-info/WHEEL"] = f"Wheel-Version: 1.0\nGenerator: scq\nRoot-Is-Purelib: false\nTag: {tag()}\n".encode()
    record = ""
    for file, held in files.items():
        digest = base64.urlsafe_b64encode(hashlib.sha256(held).digest()).rstrip(b"=").decode()
        record += f"{file},sha256={digest},{len(held)}\n"
    files[f"{name}.dist-info/RECORD"] = f"{record}{name}.dist-info/RECORD,,\n".encode()
    with zipfile.ZipFile(Path(wheel_directory) / wheel, "w", zipfile.ZIP_DEFLATED) as to:
        for file, held in files.items():
            entry = zipfile.ZipInfo(file)
            entry.external_attr = (0o100755 if ".so" in file else 0o100644) << 16
            to.writestr(entry, held, zipfile.ZIP_DEFLATED)
    return wheel


def build_sdist(sdist_directory, config_settings=None):
    name = f"scq-{noted('version')}"
    files = {file: (HERE / file).read_bytes() for file in SOURCES}
    files["PKG-INFO"] = metadata().encode()
    for file in ("scq.h", "scq_bell.h"):
        files[f"include/{file}"] = header(file).read_bytes()
    for processor in ("x86_64", "aarch64"):
        try:
            files[f"lib/{processor}-linux/libscq.a"] = archive(processor).read_bytes()
        except FileNotFoundError as none:
            print(none)  # dist/install puts that of one processor
    with tarfile.open(Path(sdist_directory) / f"{name}.tar.gz", "w:gz") as to:
        for file, held in files.items():
            entry = tarfile.TarInfo(f"{name}/{file}")
            entry.size = len(held)
            to.addfile(entry, io.BytesIO(held))
    return f"{name}.tar.gz"
