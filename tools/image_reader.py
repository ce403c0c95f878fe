"""A second reader of images, written from docs/IMAGES.md, docs/TABLES.md, docs/RINGS.md and docs/TRANSCRIPT.md alone.

`report(image)` is what `check` has to write of an image over the standard regions, and its status.
"""
from dataclasses import dataclass

ANY = 0xFFFFFFFF
TOP = 1 << 32
TCM = (0, 65536)
POOL = (0x10000000, 0x100000)
POOL_PHYSICAL = 0x30000000


class Fault(Exception):
    """The first test that fails: its number, and the index that it is about."""


def number(data, place, size):
    return int.from_bytes(data[place:place + size], "little")


@dataclass
class Layout:
    """Where the fields are that are read, by class: each a place, with the width of addresses apart."""
    wide: int
    header: int
    entry: int
    phoff: int
    shoff: int
    counts: int
    ph_size: int
    ph_fields: dict
    sh_size: int
    sh_fields: dict


LAYOUTS = {
    1: Layout(4, 52, 24, 28, 32, 42, 32, {"offset": 4, "paddr": 12, "filesz": 16, "memsz": 20},
              40, {"addr": 12, "offset": 16, "size": 20}),
    2: Layout(8, 64, 24, 32, 40, 54, 56, {"offset": 8, "paddr": 24, "filesz": 32, "memsz": 40},
              64, {"addr": 16, "offset": 24, "size": 32}),
}


def layout_of(image):
    """The layout of an image by its first bytes."""
    if len(image) < 52:
        raise Fault(1)
    if image[:4] != b"\x7fELF":
        raise Fault(2)
    if image[4] not in LAYOUTS:
        raise Fault(3)
    if image[5] != 1:
        raise Fault(4)
    layout = LAYOUTS[image[4]]
    if len(image) < layout.header:
        raise Fault(1)
    return layout


class Image:
    """A good image: its entry, its loaded segments and its sections."""

    def __init__(self, data):
        self.data = data
        layout = self.layout = layout_of(data)
        wide = layout.wide
        self.entry, self.phoff, self.shoff = (number(data, it, wide) for it in (layout.entry, layout.phoff, layout.shoff))
        phentsize, phnum, shentsize, self.shnum, shstrndx = (number(data, layout.counts + 2 * it, 2) for it in range(5))
        has_sections = self.shoff != 0
        if phnum == 65535 or shstrndx == 65535 or has_sections and self.shnum == 0:
            raise Fault(12)
        if phnum == 0:
            raise Fault(6)
        if phentsize != layout.ph_size or has_sections and shentsize != layout.sh_size:
            raise Fault(5)
        if self.phoff + phnum * layout.ph_size > len(data):
            raise Fault(7)
        if self.entry >= TOP:
            raise Fault(14)
        self.segments = list(self.read_segments(phnum))
        self.names = None
        if has_sections:
            if self.shoff + self.shnum * layout.sh_size > len(data):
                raise Fault(10)
            if shstrndx >= self.shnum:
                raise Fault(11)
            names = self.section_at(shstrndx)
            if names["offset"] + names["size"] > len(data):
                raise Fault(11)
            self.names = data[names["offset"]:names["offset"] + names["size"]]

    def fields(self, start, fields):
        return {name: number(self.data, start + place, self.layout.wide) for name, place in fields.items()}

    def read_segments(self, count):
        for index in range(count):
            start = self.phoff + index * self.layout.ph_size
            segment = self.fields(start, self.layout.ph_fields)
            if number(self.data, start, 4) != 1 or segment["memsz"] == 0:
                continue
            if segment["paddr"] >= TOP or segment["memsz"] >= TOP:
                raise Fault(13, index)
            if segment["filesz"] > segment["memsz"]:
                raise Fault(9, index)
            if segment["offset"] + segment["filesz"] > len(self.data):
                raise Fault(8, index)
            yield index, segment

    def section_at(self, index):
        return self.fields(self.shoff + index * self.layout.sh_size, self.layout.sh_fields)

    def section(self, name):
        """The first section of this name, or None."""
        if self.names is None:
            return None
        for index in range(self.shnum):
            start = number(self.data, self.shoff + index * self.layout.sh_size, 4)
            end = self.names.find(b"\0", start) if start < len(self.names) else -1
            if end >= 0 and self.names[start:end] == name:
                return self.section_at(index)
        return None


@dataclass
class Ring:
    da: int
    align: int
    num: int
    notify: int = 0

    def size(self):
        """`vring_size`."""
        used = -(-(16 * self.num + 2 * (3 + self.num)) // self.align) * self.align
        return used + 6 + 8 * self.num


@dataclass
class Entry:
    kind: int
    da: int = 0
    pa: int = 0
    length: int = 0
    name: bytes = b""
    id: int = 0
    asked: int = 0
    features: int = 0
    status: int = 0
    rings: tuple = ()


FIXED = {0: 56, 1: 56, 2: 48, 3: 28}


def is_power_of_two(value):
    return value != 0 and value & (value - 1) == 0


def name_at(table, place):
    return table[place:place + 31].partition(b"\0")[0]


def read_table(table):
    """The entries of a table."""
    size = len(table)
    if size < 16:
        raise Fault(20)
    if number(table, 0, 4) != 1:
        raise Fault(21)
    if number(table, 8, 8) != 0:
        raise Fault(22)
    count = number(table, 4, 4)
    if count > 256 or 16 + 4 * count > size:
        raise Fault(23)
    offsets = [number(table, 16 + 4 * index, 4) for index in range(count)]
    if any(offset > size for offset in offsets):
        raise Fault(23)
    taken, entries = [(0, 16 + 4 * count)], []
    for index, start in enumerate(offsets):
        entry, end = read_entry(table, start, index)
        if entry.kind == 3 and entry.id == 7 and any(it.kind == 3 and it.id == 7 for it in entries):
            raise Fault(29, index)
        if any(start < other_end and other_start < end for other_start, other_end in taken):
            raise Fault(23)
        taken.append((start, end))
        entries.append(entry)
    return entries


def read_entry(table, start, index):
    """An entry of the table, and where it ends."""
    size = len(table)
    if start + 4 > size:
        raise Fault(24, index)
    kind = number(table, start, 4)
    end = start + FIXED.get(kind, 4)
    if end > size:
        raise Fault(24, index)

    def word(place):
        return number(table, start + place, 4)

    if kind in (0, 1):
        if word(20):
            raise Fault(25, index)
        return Entry(kind, da=word(4), pa=word(8), length=word(12), name=name_at(table, start + 24)), end
    if kind == 2:
        if word(12):
            raise Fault(25, index)
        return Entry(kind, da=word(4), length=word(8), name=name_at(table, start + 16)), end
    if kind == 3:
        return read_device(table, start, index)
    return Entry(kind), end


def read_device(table, start, index):
    def word(place):
        return number(table, start + place, 4)

    count, device = table[start + 25], word(4)
    if number(table, start + 26, 2):
        raise Fault(25, index)
    if count > 2 or device == 7 and count != 2:
        raise Fault(26, index)
    end = start + 28 + 20 * count + word(20)
    if end > len(table):
        raise Fault(24, index)
    rings = tuple(Ring(*(word(28 + 20 * it + place) for place in (0, 4, 8))) for it in range(count))
    for ring in rings:
        if not is_power_of_two(ring.num) or ring.num > 32768:
            raise Fault(27, index)
        if not is_power_of_two(ring.align) or not 4 <= ring.align <= 65536:
            raise Fault(28, index)
    return Entry(3, id=device, asked=word(12), features=word(16), status=table[start + 24], rings=rings), end


class Memory:
    """The blocks that were placed in the one pool, and the windows."""

    def __init__(self):
        self.blocks, self.windows = [], []

    def meets(self, da, size):
        return any(da < start + length and start < da + size for start, length in self.blocks)

    def at(self, da, size, index):
        if not (POOL[0] <= da and da + size <= POOL[0] + POOL[1]):
            raise Fault(33, index)
        if self.meets(da, size):
            raise Fault(34, index)
        self.blocks.append((da, size))

    def anywhere(self, size, align, index):
        """The least place: an aligned address that is the pool's first or the first after a block."""
        starts = [POOL[0]] + [start + length for start, length in self.blocks]
        for da in sorted(-(-start // align) * align for start in starts):
            if da + size <= POOL[0] + POOL[1] and not self.meets(da, size):
                self.blocks.append((da, size))
                return da
        raise Fault(35, index)

    def window(self, da, pa, size, index):
        if da + size > TOP or pa + size > TOP:
            raise Fault(37, index)
        if any(da < start + length and start < da + size for start, length in [TCM, POOL, *self.windows]):
            raise Fault(36, index)
        self.windows.append((da, size))

    def holds(self, da, size):
        return any(start <= da and da + size <= start + length for start, length in [TCM, *self.blocks])


def place(entries):
    """Places what the entries ask for, and patches them."""
    memory = Memory()
    for index, entry in enumerate(entries):
        if entry.kind == 0 and entry.length and entry.da != ANY:
            memory.at(entry.da, entry.length, index)
        if entry.kind == 1 and entry.length:
            memory.window(entry.da, entry.pa, entry.length, index)
        for ring in entry.rings:
            if ring.da != ANY:
                memory.at(ring.da, ring.size(), index)
    for index, entry in enumerate(entries):
        if entry.kind == 0 and entry.length and entry.da == ANY:
            entry.da = memory.anywhere(entry.length, 4096, index)
        for ring in entry.rings:
            if ring.da == ANY:
                ring.da = memory.anywhere(ring.size(), ring.align, index)
        if entry.kind == 3 and entry.id == 7:
            memory.anywhere(512 * sum(min(ring.num, 256) for ring in entry.rings), 4096, index)
    notify = 0
    for entry in entries:
        if entry.kind == 0 and entry.length:
            entry.pa = entry.da - POOL[0] + POOL_PHYSICAL
        for ring in entry.rings:
            ring.notify = notify
            notify += 1
        if entry.kind == 3 and entry.id == 7:
            entry.features, entry.status = entry.asked & 1, 7
    return memory


def visible(name):
    return "".join(chr(it) if 0x21 <= it <= 0x7E and it != 0x25 else f"%{it:02x}" for it in name) or "%"


def lines_of(index, entry, memory):
    if entry.kind in (0, 1):
        word = ["carveout", "devmem"][entry.kind]
        yield f"entry {index} {word} {entry.da:08x} {entry.pa:08x} {entry.length:08x} {visible(entry.name)}"
    elif entry.kind == 2:
        rest = "" if entry.length and memory.holds(entry.da, entry.length) else " unavailable"
        yield f"entry {index} trace {entry.da:08x} {entry.length:08x} {visible(entry.name)}{rest}"
    elif entry.kind == 3:
        yield f"entry {index} vdev {entry.id} features {entry.features} status {entry.status}"
        for place_of, ring in enumerate(entry.rings):
            yield f"vring {index}.{place_of} {ring.da:08x} {ring.align} {ring.num} {ring.notify}"
    else:
        yield f"entry {index} skipped {entry.kind}"


def lines(data):
    """The lines of the report of an image that loads."""
    image = Image(data)
    section = image.section(b".resource_table")
    entries = []
    if section:
        end = section["offset"] + section["size"]
        if end > len(data):
            raise Fault(20)
        entries = read_table(data[section["offset"]:end])
    memory = place(entries)
    for index, segment in image.segments:
        if not memory.holds(segment["paddr"], segment["memsz"]):
            raise Fault(40, index)
    if not memory.holds(image.entry, 16):
        raise Fault(41)
    yield f"start {image.entry:08x}"
    for index, segment in image.segments:
        yield f"segment {index} {segment['paddr']:08x} {segment['filesz']} {segment['memsz']}"
    for index, entry in enumerate(entries):
        yield from lines_of(index, entry, memory)
    yield "ok"


def report(data):
    """What `check` writes of an image, and its status."""
    try:
        return "".join(f"{line}\n" for line in lines(data)).encode(), 0
    except Fault as fault:
        return f"fault {' '.join(map(str, fault.args))}\n".encode(), 1
