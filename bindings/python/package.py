"""Builds Python's package for `pip install ./bindings/python`, with -e too: a wheel of the folder src/uriparse and of the extension module,
which `make` builds and which has the library in it. One wheel is for all versions of CPython from 3.11 on. An sdist has the built library
for each machine for which it is proved, since its source needs the kit, and the source of the module. The setting `target`, as in
`pip wheel -C target=aarch64-linux-gnu ./bindings/python`, builds for another machine.

It is the backend that pyproject.toml names (PEP 517, PEP 660), and needs nothing but Python with its headers and what `make` needs.
What it writes depends on its input alone; files have the time in SOURCE_DATE_EPOCH, or that of 1980."""
import base64
import gzip
import hashlib
import io
import os
import platform
import re
import subprocess
import sys
import sysconfig
import tarfile
import tempfile
import time
import zipfile

HERE = os.path.dirname(os.path.abspath(__file__))
NAME = "uriparse_rattle"
MODULE = "uriparse/_uriparse.abi3.so"
SOURCES = ("module/module.h", "module/module.c", "module/texts.c", "module/reference.c", "module/calls.c", "module/edits.c", "module/many.c")
MODULES = ("uriparse/__init__.py", "uriparse/_errors.py", "uriparse/_uriparse.pyi", "uriparse/py.typed")
# The first time that a zip file can name.
FIRST_TIME = 315532800


def read(*path):
    with open(os.path.join(HERE, *path), "rb") as file:
        return file.read()


def in_sdist():
    """Whether this is an unpacked sdist, which has its metadata beside it."""
    return os.path.exists(os.path.join(HERE, "PKG-INFO"))


def made_time():
    return max(FIRST_TIME, int(os.environ.get("SOURCE_DATE_EPOCH", FIRST_TIME)))


def run_make(*words):
    words = ["make", "-s", "-C", HERE, "PYTHON=" + sys.executable, *words]
    if subprocess.run(words).returncode:
        raise SystemExit("`make -C bindings/python` failed.")


def check_python():
    if sysconfig.get_config_var("Py_GIL_DISABLED"):
        raise SystemExit("uriparse doesn't support a free-threaded CPython.")


def has_archive(target):
    return os.path.exists(os.path.join(HERE, "..", "..", "crates", "uriparse_c", "out", target, "liburiparse_c.a"))


def check_archive(target):
    if not has_archive(target):
        also = ", then `tools/gate/archive %s`," % target if target else ""
        raise SystemExit("The library isn't built. Run `(cd crates/uriparse_c && rt lib)`%s first." % also)


def make(out, target=""):
    """Builds the module and the package in a folder, for this machine if no target is named."""
    check_python()
    if in_sdist():
        run_make("OUT=" + out, "LIBRARY=" + os.path.join(HERE, "lib", platform.machine() + "-linux-gnu"))
        return
    check_archive(target)
    run_make("OUT=" + out, "TARGET=" + target)


def target_of(config_settings):
    return (config_settings or {}).get("target", "")


def built_module(config_settings):
    with tempfile.TemporaryDirectory() as out:
        make(out, target_of(config_settings))
        return read(out, MODULE)


def license_text():
    return read("LICENSE") if in_sdist() else read("..", "..", "LICENSE")


def version():
    return re.search(rb'^__version__ = "(.*)"', read("src/uriparse/__init__.py"), re.MULTILINE)[1].decode()


def metadata():
    """The core metadata: what pyproject.toml says, which has a value in one line for each key, then the page of the package."""
    project = dict(re.findall(r'^([\w-]+) = "(.*)"$', read("pyproject.toml").decode(), re.MULTILINE))
    lines = (
        "Metadata-Version: 2.4", "Name: " + project["name"], "Version: " + version(), "Summary: " + project["description"],
        "License-Expression: " + project["license"], "License-File: LICENSE", "Requires-Python: " + project["requires-python"],
        "Project-URL: Specification, " + project["Specification"], "Classifier: Operating System :: POSIX :: Linux",
        "Classifier: Programming Language :: Python :: 3 :: Only", "Classifier: Programming Language :: Python :: Implementation :: CPython",
        "Classifier: Typing :: Typed", "Description-Content-Type: text/markdown", "", read(project["readme"]).decode())
    return "\n".join(lines).encode()


# Machines by their numbers in ELF.
MACHINES = {62: "x86_64", 183: "aarch64"}


def tag(content):
    """The tag of a wheel with this module: the limited interface of CPython 3.11, the oldest glibc with the symbols that it takes, and
    the machine. No name is older than 2.17."""
    machine = MACHINES[int.from_bytes(content[18:20], "little")]
    minors = [int(minor) for minor in re.findall(rb"GLIBC_2\.(\d+)", content)]
    return "cp311-abi3-manylinux_2_%d_%s" % (max(17, *minors), machine) if minors else "cp311-abi3-linux_" + machine


def record(files):
    """The list of the wheel's files, with their sums."""
    def line(name):
        return "%s,sha256=%s,%d\n" % (name, base64.urlsafe_b64encode(hashlib.sha256(files[name]).digest()).decode().rstrip("="), len(files[name]))
    return "".join(map(line, files))


def write_wheel(folder, files, wheel_tag):
    """Writes a wheel of the files, and returns its name."""
    info = "%s-%s.dist-info/" % (NAME, version())
    wheel = "Wheel-Version: 1.0\nGenerator: package.py\nRoot-Is-Purelib: false\nTag: %s\n"
    listed = info + "RECORD"
    files[info + "METADATA"] = metadata()
    files[info + "licenses/LICENSE"] = license_text()
    files[info + "WHEEL"] = (wheel % wheel_tag).encode()
    files[listed] = (record(files) + listed + ",,\n").encode()
    made = "%s-%s-%s.whl" % (NAME, version(), wheel_tag)
    with zipfile.ZipFile(os.path.join(folder, made), "w") as archive:
        for name, content in files.items():
            entry = zipfile.ZipInfo(name, time.gmtime(made_time())[:6])
            entry.compress_type = zipfile.ZIP_DEFLATED
            entry.external_attr = (0o100755 if name.endswith(".so") else 0o100644) << 16
            archive.writestr(entry, content)
    return made


def build_wheel(wheel_directory, config_settings=None, metadata_directory=None):
    files = {name: read("src", name) for name in MODULES}
    files[MODULE] = built_module(config_settings)
    return write_wheel(wheel_directory, files, tag(files[MODULE]))


def build_editable(wheel_directory, config_settings=None, metadata_directory=None):
    """A wheel that has the path of `src` alone, where the module is put."""
    module = built_module(config_settings)
    with open(os.path.join(HERE, "src", MODULE), "wb") as file:
        file.write(module)
    return write_wheel(wheel_directory, {NAME + ".pth": (os.path.join(HERE, "src") + "\n").encode()}, tag(module))


# In an sdist, the library for a machine, and the target that `make` calls it by.
LIBRARIES = (("lib/x86_64-linux-gnu/liburiparse.a", ""), ("lib/aarch64-linux-gnu/liburiparse.a", "aarch64-linux-gnu"))


def built_libraries():
    """The header, and the library for each machine for which it is proved."""
    if in_sdist():
        return {name: read(name) for name in ("uriparse.h", *(name for name, _ in LIBRARIES)) if os.path.exists(os.path.join(HERE, name))}
    check_archive("")
    files = {"uriparse.h": read("..", "c", "uriparse.h")}
    for name, target in LIBRARIES:
        if has_archive(target):
            with tempfile.TemporaryDirectory() as out:
                run_make("OUT=" + out, "TARGET=" + target, os.path.join(out, "c", "liburiparse.a"))
                files[name] = read(out, "c", "liburiparse.a")
    return files


def build_sdist(sdist_directory, config_settings=None):
    files = {name: read(name) for name in ("pyproject.toml", "package.py", "Makefile", "README.md", "test.py", *SOURCES)}
    files.update({"src/" + name: read("src", name) for name in MODULES})
    files.update({"LICENSE": license_text(), "PKG-INFO": metadata(), **built_libraries()})
    base = "%s-%s" % (NAME, version())
    with open(os.path.join(sdist_directory, base + ".tar.gz"), "wb") as whole:
        with gzip.GzipFile("", "wb", fileobj=whole, mtime=made_time()) as packed:
            with tarfile.open(fileobj=packed, mode="w", format=tarfile.PAX_FORMAT) as archive:
                for name, content in files.items():
                    member = tarfile.TarInfo(base + "/" + name)
                    member.size, member.mtime = len(content), made_time()
                    archive.addfile(member, io.BytesIO(content))
    return base + ".tar.gz"
