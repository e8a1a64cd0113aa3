"""Makes a screenshot smaller without changing a pixel. Browsers pack pictures fast; without filters, and packed well, flat areas take much less room."""
import struct
import zlib

SIGNATURE = b'\x89PNG\r\n\x1a\n'
TRUE_COLOUR = b'\x08\x02\x00\x00\x00'  # eight bits for each of three colours, as browsers write it


def chunks(data):
    """The chunks of a PNG: kind and content."""
    at = len(SIGNATURE)
    while at < len(data):
        size = int.from_bytes(data[at:at + 4], 'big')
        yield data[at + 4:at + 8], data[at + 8:at + 8 + size]
        at += 12 + size


def chunk(kind, content):
    """A chunk as bytes."""
    return struct.pack('>I', len(content)) + kind + content + struct.pack('>I', zlib.crc32(kind + content))


def paeth(left, above, corner):
    """The neighbour that is nearest to left + above - corner."""
    return min((left, above, corner), key=lambda value: abs(left + above - corner - value))


def plain_row(kind, row, above):
    """A row without its filter."""
    row = bytearray(row)
    for i in range(len(row)):
        left, corner = (row[i - 3], above[i - 3]) if i > 2 else (0, 0)
        row[i] = (row[i] + (0, left, above[i], (left + above[i]) // 2, paeth(left, above[i], corner))[kind]) & 255
    return bytes(row)


def smaller(path):
    """Packs a picture again, if that makes it smaller."""
    with open(path, 'rb') as file:
        data = file.read()
    parts = list(chunks(data))
    head = parts[0][1]
    assert data.startswith(SIGNATURE) and head[8:] == TRUE_COLOUR, f'{path} is not such a picture'
    packed = zlib.decompress(b''.join(content for kind, content in parts if kind == b'IDAT'))
    step = 1 + 3 * int.from_bytes(head[:4], 'big')
    row, rows = bytes(step - 1), []
    for at in range(0, len(packed), step):
        row = plain_row(packed[at], packed[at + 1:at + step], row)
        rows.append(b'\0' + row)
    again = SIGNATURE + chunk(b'IHDR', head) + chunk(b'IDAT', zlib.compress(b''.join(rows), 9)) + chunk(b'IEND', b'')
    if len(again) < len(data):
        with open(path, 'wb') as file:
            file.write(again)
