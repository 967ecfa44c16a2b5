"""What the artefacts of a release hold: archives of the library for C, modules that are linked with one, the program, and the module for
WebAssembly."""

import hashlib
import io
import lzma
import struct
import tarfile
import zipfile
from pathlib import Path

import coff

TARGETS = ("x86_64-linux-gnu", "aarch64-linux-gnu")
# Compiled from the module of LLVM.
OTHERS = ("riscv64-linux-gnu", "x86_64-w64-mingw32", "arm64-apple-macos11", "x86_64-apple-macos11")
WINDOWS = OTHERS[1]
MACHINES = {62: "x86_64-linux-gnu", 183: "aarch64-linux-gnu"}
# Relocations of x86-64 by which a linker may also change the instruction: it begins up to three bytes before.
RELAXED = (9, 41, 42)


def sum_of(content):
    return hashlib.sha256(content).hexdigest()


def ar_members(content):
    """The files of an archive of `ar`, without its tables."""
    at = 8
    while at < len(content):
        name, size = content[at:at + 16].decode().strip(), int(content[at + 48:at + 58])
        if name not in ("/", "//"):
            yield name.rstrip("/"), content[at + 60:at + 60 + size]
        at += 60 + size + size % 2


def tar_members(content):
    with tarfile.open(fileobj=io.BytesIO(content)) as archive:
        for member in archive:
            if member.isfile():
                yield member.name, archive.extractfile(member).read()


def members(name, content):
    """The files of an artefact with their paths."""
    if name.endswith((".whl", ".zip")):
        with zipfile.ZipFile(io.BytesIO(content)) as archive:
            return [(path, archive.read(path)) for path in archive.namelist()]
    if name.endswith(".deb"):
        return list(tar_members(lzma.decompress(dict(ar_members(content))["data.tar.xz"])))
    if name.endswith((".tar.gz", ".tgz", ".crate")):
        return list(tar_members(content))
    return []


def machine_of(elf):
    return MACHINES[struct.unpack_from("<H", elf, 18)[0]]


def sections(elf):
    """The sections of an ELF file: type, flags, offset, size, the section that it is about, and the size of an entry."""
    start, = struct.unpack_from("<Q", elf, 40)
    size, count = struct.unpack_from("<HH", elf, 58)
    for number in range(count):
        _, kind, flags, _, offset, length, _, about, _, entry = struct.unpack_from("<IIQQQQIIQQ", elf, start + number * size)
        yield kind, flags, offset, length, about, entry


def segments_of_code(elf):
    """The bytes of a linked file that a processor may execute."""
    if elf.startswith(coff.LINKED):
        return coff.segments_of_code(elf)
    start, = struct.unpack_from("<Q", elf, 32)
    size, count = struct.unpack_from("<HH", elf, 54)
    found = []
    for number in range(count):
        kind, flags, offset, _, _, length = struct.unpack_from("<IIQQQQ", elf, start + number * size)
        if kind == 1 and flags & 1:
            found.append(elf[offset:offset + length])
    return found


def open_places(elf, table, entry, is_x86):
    """The bytes of a section that its relocations let a linker change."""
    places = set()
    for at in range(0, len(table), entry):
        place, info = struct.unpack_from("<QQ", table, at)
        kind = info & 0xFFFFFFFF
        before = 3 if is_x86 and kind in RELAXED else 0
        width = 8 if kind in ((1, 24) if is_x86 else (257,)) else 4
        places.update(range(place - before, place + width))
    return places


def fixed_runs(content, places):
    """The runs of bytes without those places, each with where it begins."""
    begin = 0
    for place in [*sorted(place for place in places if place < len(content)), len(content)]:
        if place > begin:
            yield begin, content[begin:place]
        begin = place + 1


def pieces(elf):
    """The runs of fixed bytes of each section of code of an object."""
    if elf.startswith(coff.OBJECT):
        for content, places in coff.pieces(elf):
            yield list(fixed_runs(content, places))
        return
    found, relocations = {}, {}
    for number, (kind, flags, offset, length, about, entry) in enumerate(sections(elf)):
        if kind == 1 and flags & 4 and length:
            found[number] = elf[offset:offset + length]
        elif kind == 4:
            relocations[about] = (elf[offset:offset + length], entry)
    is_x86 = machine_of(elf) == TARGETS[0]
    for number, content in found.items():
        table, entry = relocations.get(number, (b"", 24))
        yield list(fixed_runs(content, open_places(elf, table, entry, is_x86)))


def stands_in(runs, code):
    """Whether a section of these runs stands in the code."""
    longest_at, longest = max(runs, key=lambda run: len(run[1]))
    at = code.find(longest)
    while at >= 0:
        start = at - longest_at
        if start >= 0 and all(code.startswith(run, start + place) for place, run in runs):
            return True
        at = code.find(longest, at + 1)
    return False


def is_linked_with(elf, archive):
    """Whether all code of the archive of the library stands in a linked file."""
    codes = segments_of_code(elf)
    return all(any(stands_in(runs, code) for code in codes) for _, made in ar_members(archive) for runs in pieces(made) if runs)


def target_of(path, content):
    """The target of the library that is linked into a file, or None if the file isn't linked with one."""
    name = path.rsplit("/", 1)[-1]
    if content.startswith(b"\x7fELF") and (name.endswith(".so") or ".so." in name):
        return machine_of(content)
    return WINDOWS if content.startswith(coff.LINKED) and name.endswith((".dll", ".pyd")) else None


def held(path, content, known):
    """What a file of an artefact holds, or None if it is neither an archive, a linked file nor a module. It must be one of those known:
    the archive for each target, `uri` and `uriparse.wasm`."""
    name = path.rsplit("/", 1)[-1]
    if name == "liburiparse.a":
        target = next((target for target in TARGETS + OTHERS if content == known[target]), None)
        what, is_right = "liburiparse.a of %s" % target, target is not None
    elif target_of(path, content):
        target = target_of(path, content)
        what, is_right = "the code of liburiparse.a of " + target, is_linked_with(content, known[target])
    elif content.startswith(b"\x7fELF") and name == "uri":
        what, is_right = "the code of uri", segments_of_code(content) == segments_of_code(known["uri"])
    elif name == "uriparse.wasm":
        what, is_right = name, content == known[name]
    else:
        return None
    if not is_right:
        raise SystemExit("%s: it doesn't hold %s" % (path, what))
    return what


def holds(name, content, known):
    """What each file of an artefact holds."""
    found = {path: held("%s: %s" % (name, path), file, known) for path, file in members(name, content)}
    return {path: what for path, what in found.items() if what}


def known_of(dist, version):
    """What artefacts are made of: the archives that those for C have, the program and the module of the packages for these."""
    def of(name, path):
        artefact = "%s.%s" % (name, "tgz" if name.startswith("uriparse-rattle") else "tar.gz")
        inside = dict(members(artefact, (Path(dist) / artefact).read_bytes()))
        return next(content for found, content in inside.items() if found.endswith(path))
    known = {target: of("liburiparse-%s-%s" % (version, target), "/lib/liburiparse.a") for target in TARGETS + OTHERS}
    known["uri"] = of("uri-%s-%s" % (version, TARGETS[0]), "/bin/uri")
    known["uriparse.wasm"] = of("uriparse-rattle-" + version, "/uriparse.wasm")
    return known
