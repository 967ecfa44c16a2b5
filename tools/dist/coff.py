"""The code of files for Windows on x86-64: objects in COFF, and what is linked of them, in PE."""

import struct

OBJECT = b"\x64\x86"
LINKED = b"MZ"
# The flag of a section of code, and the relocation of a whole address: all others have four bytes.
CODE, ADDRESS = 0x20, 1


def _sections(content, header):
    """The sections of code behind a header: their bytes, the place of their relocations, and how many there are."""
    count, = struct.unpack_from("<H", content, header + 2)
    optional, = struct.unpack_from("<H", content, header + 16)
    for number in range(count):
        at = header + 20 + optional + 40 * number
        size, offset, relocations, _, relocation_count, _, flags = struct.unpack_from("<IIIIHHI", content, at + 16)
        if flags & CODE and size:
            yield content[offset:offset + size], relocations, relocation_count


def segments_of_code(linked):
    """The bytes of a linked file that a processor may execute."""
    header, = struct.unpack_from("<I", linked, 60)
    return [code for code, _, _ in _sections(linked, header + 4)]


def pieces(made):
    """For each section of code of an object: its bytes, and those places that its relocations let a linker change."""
    for code, relocations, count in _sections(made, 0):
        assert count < 0xFFFF, "the number of relocations stands elsewhere"
        places = set()
        for number in range(count):
            place, _, kind = struct.unpack_from("<IIH", made, relocations + 10 * number)
            places.update(range(place, place + (8 if kind == ADDRESS else 4)))
        yield code, places
