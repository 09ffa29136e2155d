#!/usr/bin/env python3
"""The CRC-32 of two texts, as the standard library knows it."""
import zlib

for text in (b'123456789', b'THE QUICK BROWN FOX JUMPS OVER THE LAZY DOG'):
    print(f'PRT {zlib.crc32(text):08X}')
