"""What a program of Linux needs where it runs."""
import re
import struct

DYNAMIC, LOAD = 2, 1  # kinds of segments (elf(5))
NEEDED, STRINGS, STRINGS_SIZE = 1, 5, 10  # tags of the dynamic section


def segments(binary):
    """Kind, offset, address and size of each segment."""
    first, size, count = struct.unpack_from("<Q", binary, 32)[0], *struct.unpack_from("<HH", binary, 54)
    for place in range(first, first + size * count, size):
        kind, _, offset, address, _, length = struct.unpack_from("<IIQQQQ", binary, place)
        yield kind, offset, address, length


def offset_of(binary, address):
    """Where in the file an address is."""
    return next(offset + address - start for kind, offset, start, length in segments(binary)
                if kind == LOAD and start <= address < start + length)


def dynamic(binary):
    """The tags of the dynamic section with their values."""
    _, offset, _, length = next(segment for segment in segments(binary) if segment[0] == DYNAMIC)
    return [struct.unpack_from("<qQ", binary, place) for place in range(offset, offset + length, 16)]


def needs(binary):
    """The libraries that it links, and the version of the GNU C library that it needs at least."""
    tags = dynamic(binary)
    start = offset_of(binary, dict(tags)[STRINGS])
    strings = binary[start:start + dict(tags)[STRINGS_SIZE]]
    libraries = [strings[value:strings.index(b"\0", value)].decode() for tag, value in tags if tag == NEEDED]
    versions = [tuple(map(int, found.split(b"."))) for found in re.findall(rb"GLIBC_(\d+(?:\.\d+)+)\0", strings)]
    return libraries, ".".join(map(str, max(versions, default=(0,))))
