"""The CRC that STM32's own unit computes: polynomial 04C11DB7, from FFFFFFFF on, over 32-bit words, the highest bit first."""

import zlib

# each byte with its bits the other way round, as zlib has them; what it computes is inverted in the end
TURNED = bytes(int(f"{byte:08b}"[::-1], 2) for byte in range(256))


def crc(data):
    """The CRC of bytes whose count is a multiple of 4: each word has its lowest byte first."""
    words = b"".join(data[at:at + 4][::-1] for at in range(0, len(data), 4))
    return int(f"{zlib.crc32(words.translate(TURNED)) ^ 0xFFFFFFFF:032b}"[::-1], 2)
