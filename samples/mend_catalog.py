"""Cuts the catalog out of an HFS volume and sets the bytes that hfsutils writes otherwise than the rules.

    python3 mend_catalog.py VOLUME MENDED
    python3 mend_catalog.py --cut VOLUME EXTENTS CATALOG

The first form writes the mended catalog and says how many bytes it changed. The second writes both trees
as they stand on the volume.
"""

import sys

NODE = 512
MDB = 1024
CATALOG_FILE = 4
DATA_FORK = 0x00

LAST_OFFSET_OF_MAP = 0x01FC


def number(data, at, size):
    return int.from_bytes(data[at : at + size], "big")


def extents_at(data, at):
    """The pairs of first block and block count that are in use, up to three."""
    pairs = [(number(data, at + 4 * i, 2), number(data, at + 4 * i + 2, 2)) for i in range(3)]
    return [pair for pair in pairs if pair[1] > 0]


def records(node):
    """The offsets at which the records of a node start, and last the end of the last one."""
    return [number(node, NODE - 2 * (i + 1), 2) for i in range(number(node, 10, 2) + 1)]


class Volume:
    def __init__(self, image):
        self.image = image
        if number(image, MDB, 2) != 0x4244:
            raise SystemExit("no HFS volume")
        self.block_size = number(image, MDB + 20, 4)
        self.first = 512 * number(image, MDB + 28, 2)
        self.extents = self.cut(extents_at(image, MDB + 134), number(image, MDB + 130, 4))
        self.catalog_pieces, self.catalog_records = self.later_pieces(
            CATALOG_FILE, DATA_FORK, extents_at(image, MDB + 150)
        )
        self.catalog = self.cut(self.catalog_pieces, number(image, MDB + 146, 4))

    def block(self, volume_block):
        start = self.first + self.block_size * volume_block
        return self.image[start : start + self.block_size]

    def cut(self, pieces, size):
        blocks = (self.block(start + i) for start, count in pieces for i in range(count))
        data = b"".join(blocks)
        if len(data) < size:
            raise SystemExit("pieces are missing")
        return data[:size]

    def extents_records(self):
        """Every leaf record, by the forward links: file, fork, start block, pairs, node and offset."""
        number_of_node = number(self.extents, 24, 4)
        while number_of_node != 0:
            node = self.extents[NODE * number_of_node : NODE * (number_of_node + 1)]
            for at in records(node)[:-1]:
                file, fork, start = number(node, at + 2, 4), node[at + 1], number(node, at + 6, 2)
                yield file, fork, start, extents_at(node, at + 8), number_of_node, at
            number_of_node = number(node, 0, 4)

    def later_pieces(self, file, fork, pieces):
        """The pieces of a fork after the first ones, and the extents records that have them."""
        pieces, used = list(pieces), []
        for record in self.extents_records():
            if record[:2] == (file, fork):
                if record[2] != sum(count for _, count in pieces):
                    raise SystemExit("an extents record does not continue its fork")
                pieces += record[3]
                used.append(record)
        return pieces, used


def mend(catalog):
    """The catalog by the rules, and the offsets of the changed bytes in leaf keys and in map nodes."""
    mended = bytearray(catalog)
    keys, maps = [], []

    number_of_node = number(catalog, 24, 4)
    while number_of_node != 0:
        start = NODE * number_of_node
        node = catalog[start : start + NODE]
        for at in records(node)[:-1]:
            length = 6 + node[at + 6]
            if node[at] != length:
                mended[start + at] = length
                keys.append(start + at)
        number_of_node = number(node, 0, 4)

    number_of_node = number(catalog, 0, 4)
    while number_of_node != 0:
        last = NODE * number_of_node + NODE - 4
        if number(catalog, last, 2) != LAST_OFFSET_OF_MAP:
            mended[last : last + 2] = LAST_OFFSET_OF_MAP.to_bytes(2, "big")
            maps += [at for at in (last, last + 1) if mended[at] != catalog[at]]
        number_of_node = number(catalog, NODE * number_of_node, 4)

    return bytes(mended), keys, maps


def read(path):
    with open(path, "rb") as file:
        return file.read()


def write(path, data):
    with open(path, "wb") as file:
        file.write(data)


def main(arguments):
    if len(arguments) == 4 and arguments[0] == "--cut":
        volume = Volume(read(arguments[1]))
        write(arguments[2], volume.extents)
        write(arguments[3], volume.catalog)
    elif len(arguments) == 2:
        volume = Volume(read(arguments[0]))
        mended, keys, maps = mend(volume.catalog)
        write(arguments[1], mended)
        print(f"{len(keys) + len(maps)} bytes changed: {len(keys)} in leaf keys, {len(maps)} in map nodes")
    else:
        raise SystemExit(__doc__)


if __name__ == "__main__":
    main(sys.argv[1:])
