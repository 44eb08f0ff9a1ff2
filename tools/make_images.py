#!/usr/bin/env python3
"""Writes the payloads in examples/ and the files in crates/vestruga/data.

It is an implementation of docs/FORMAT.md of its own and shares nothing with the crates: the images that the
program is run on, and those that it must refuse, are made here. With --compare DIR it also says whether the
images that the program sealed into DIR are, byte for byte, those that it would have made.
"""
import pathlib
import struct
import sys

ROOT = pathlib.Path(__file__).resolve().parent.parent
DATA = ROOT / 'crates/vestruga/data'
EXAMPLES = ROOT / 'examples'


def check_word(data):
    word = 0
    for byte in data:
        word = ((word << 5) | (word >> 27)) & 0xFFFFFFFF
        word ^= byte
    return word


def seal(kind, number, payload, edition=1, zeros=bytes(8)):
    body = bytes([kind, edition]) + struct.pack('>H', number) + zeros + payload.ljust(496, b'\0')
    return body + struct.pack('>I', check_word(body))


def image(kind, data):
    return b''.join(seal(kind, i // 496, data[i:i + 496]) for i in range(0, len(data), 496))


def bundle(slot0=(0, 0), slot1=(0, 0), format_byte=0, tail=bytes(7)):
    return bytes([*slot0, *slot1, 0, 0, 0, 0, format_byte]) + tail


# factors of 300 classes of contents, two bytes each; 256 is 1.00
TABLE = b''.join(struct.pack('>H', 256 + 3 * i % 97 - 40) for i in range(300))

# push 25 and push 4, mul 1s0, mul@, and a jump to the end
CODE = (bundle((1, 25), (1, 4)) + bundle((13, 16)) + bundle((47, 0))
        + bundle(format_byte=4, tail=bytes(2) + struct.pack('>I', 248) + bytes(1)))


def files():
    table, code = image(2, TABLE), image(1, CODE + bytes(600))
    damaged = bytearray(table)
    damaged[512 + 100] ^= 0x40
    unlawful = bytearray(CODE + bytes(600))
    unlawful[16 * 33 + 8] = 5
    return {
        'contents.bin': TABLE,
        'premium.bin': CODE,
        'empty.bin': b'',
        'short.img': table[:-1],
        'kind.img': code[:512] + seal(3, 1, b''),
        'edition.img': seal(1, 0, b'', edition=2),
        'place.img': seal(1, 0, b'') + seal(1, 2, b''),
        'zeros.img': seal(1, 0, b'', zeros=bytes(7) + b'\1'),
        'damaged.img': bytes(damaged),
        'unlawful.img': image(1, bytes(unlawful)),
    }


def compare(folder):
    same = all((folder / name).read_bytes() == expected
               for name, expected in (('contents.img', image(2, TABLE)), ('premium.img', image(1, CODE))))
    print('the sealed images are the same' if same else 'a sealed image differs')
    return 0 if same else 1


def main():
    if sys.argv[1:2] == ['--compare']:
        return compare(pathlib.Path(sys.argv[2]))
    for name, data in files().items():
        (DATA / name).write_bytes(data)
    for name in ('contents.bin', 'premium.bin'):
        (EXAMPLES / name).write_bytes(files()[name])
    return 0


if __name__ == '__main__':
    sys.exit(main())
