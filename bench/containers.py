"""Takes the shader chunks out of files that others ship: containers.py FOLDER OUT. Every DXBC container in a file below FOLDER is looked into,
wherever it begins; each SHEX or SHDR chunk becomes a file of OUT, named after its dwords and what it holds, so that equal ones are kept once."""
import hashlib
import os
import struct
import sys


def chunks(data):
    place = data.find(b'DXBC')
    while place >= 0:
        if place + 32 <= len(data):
            size, count = struct.unpack_from('<II', data, place + 24)
            container = data[place:place + size]
            if len(container) == size and 32 + 4 * count <= size:
                for start in struct.unpack_from(f'<{count}I', container, 32):
                    if start + 8 <= size and container[start:start + 4] in (b'SHEX', b'SHDR'):
                        length, = struct.unpack_from('<I', container, start + 4)
                        if start + 8 + length <= size:
                            yield container[start + 8:start + 8 + length]
        place = data.find(b'DXBC', place + 4)


def main():
    folder, out = sys.argv[1:]
    os.makedirs(out, exist_ok=True)
    for path, _, names in os.walk(folder):
        for name in names:
            file = os.path.join(path, name)
            if os.path.islink(file):
                continue
            with open(file, 'rb') as f:
                data = f.read()
            for chunk in chunks(data):
                told = f'{len(chunk) // 4:06d}-{hashlib.sha256(chunk).hexdigest()[:12]}.shex'
                with open(os.path.join(out, told), 'wb') as f:
                    f.write(chunk)


main()
