"""The listing of a file, from Python by ctypes: listing.py LIBRARY FILE, where LIBRARY is the shared object.

Exit status 0 where the file is accepted, 1 where it is refused, 2 where it cannot be read or written."""

import ctypes
import os
import sys


def listing_of(library, file):
    """What is said of a file's bytes, 0 where it is accepted, and its listing."""
    call = library.kodarfi_listing
    call.restype = ctypes.c_uint32
    call.argtypes = [ctypes.c_char_p, ctypes.c_size_t, ctypes.c_char * 32768, ctypes.POINTER(ctypes.c_size_t), ctypes.c_uint64 * 2]
    listing, written, places = ctypes.create_string_buffer(32768), ctypes.c_size_t(), (ctypes.c_uint64 * 2)()
    number = call(file, len(file), listing, ctypes.byref(written), places)
    return number, listing.raw[: written.value]


def main():
    if len(sys.argv) != 3:
        return 2
    try:
        with open(sys.argv[2], "rb") as opened:
            number, listing = listing_of(ctypes.CDLL(os.path.abspath(sys.argv[1])), opened.read())
        sys.stdout.buffer.write(listing)
        sys.stdout.buffer.flush()
    except OSError as error:
        print(error, file=sys.stderr)
        return 2
    return int(number != 0)


if __name__ == "__main__":
    sys.exit(main())
