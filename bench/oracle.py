"""What an object is and what `ldso dump` should print of it, worked out a second time and in another
way: plain Python, bytes counted one by one, no index and no cleverness. docs/REFUSALS.md has the rules by
their numbers. bench/fuzz.py compares the two."""

import struct
from collections import Counter, namedtuple

LOAD, DYNAMIC, STORAGE = 1, 2, 7
NULL, NEEDED, PLTRELSZ, PLTGOT, HASH, STRTAB, SYMTAB, RELA, RELASZ, RELAENT, STRSZ, SYMENT = range(12)
SONAME, REL, PLTREL, TEXTREL, JMPREL, FLAGS = 14, 17, 20, 22, 23, 30
RELRSZ, RELR, RELRENT = 35, 36, 37
SYMBOLIC, DF_SYMBOLIC = 16, 2
ARRAYS = ((25, 27), (26, 28), (32, 33))
GNU_HASH, VERSYM = 0x6FFFFEF5, 0x6FFFFFF0
VERDEF, VERDEFNUM, VERNEED, VERNEEDNUM = 0x6FFFFFFC, 0x6FFFFFFD, 0x6FFFFFFE, 0x6FFFFFFF
R_NONE, R_32, R_COPY, R_JUMP_SLOT, R_TLSDESC, R_IRELATIVE = 0, 1, 4, 5, 12, 58
LINKED_TYPES = {0, 2, 3, 4, 5, 7, 9, 11}
MOST_RECORDS = 32768

Header = namedtuple("Header", "kind flags offset vaddr filesz memsz align")
Symbol = namedtuple("Symbol", "name info other section value size")
Reloc = namedtuple("Reloc", "place kind symbol addend")
Gnu = namedtuple("Gnu", "first shift bloom buckets chain count")
Definition = namedtuple("Definition", "index flags name")
Need = namedtuple("Need", "index flags file name")
Object = namedtuple(
    "Object",
    "is_exec soname needed symbols first indexes definitions needs relocs places slots is_symbolic",
)


class Broken(Exception):
    """A rule that the file breaks first, with its number."""

    def __init__(self, rule, number):
        super().__init__(rule, number)
        self.rule, self.number = rule, number


def ask(good, rule, number):
    if not good:
        raise Broken(rule, number)


def number_at(data, at, width):
    return int.from_bytes(data[at : at + width], "little")


class Memory:
    """The mapped segments of a file."""

    def __init__(self, data, headers):
        self.data = data
        self.segments = [h for h in headers if h.kind == LOAD and h.memsz]

    def bytes_at(self, start, size):
        """So many bytes of the file from an address on, or None."""
        if size == 0:
            return b""
        for h in self.segments:
            if h.vaddr <= start and start + size <= h.vaddr + h.filesz:
                at = h.offset + start - h.vaddr
                return self.data[at : at + size]
        return None

    def rest_from(self, start):
        """The bytes of the file from an address to the end of its segment, or None."""
        for h in self.segments:
            if h.vaddr <= start < h.vaddr + h.filesz:
                return self.data[h.offset + start - h.vaddr : h.offset + h.filesz]
        return None

    def is_writable(self, start, size):
        return size == 0 or any(
            h.flags & 2 and h.vaddr <= start and start + size <= h.vaddr + h.memsz for h in self.segments
        )

    def is_code(self, start):
        return any(h.flags & 1 and h.vaddr <= start < h.vaddr + h.memsz for h in self.segments)


# ---- rules 1 to 9


def headers_of(data):
    ask(len(data) >= 64, 1, 0)
    ask(data[:4] == b"\x7fELF", 2, 0)
    ask(data[4:7] == b"\x02\x01\x01" and number_at(data, 20, 4) == 1, 3, 0)
    ask(number_at(data, 18, 2) == 243, 4, 0)
    ask(number_at(data, 16, 2) in (2, 3), 5, 0)
    ask(number_at(data, 48, 4) & 15 == 0, 6, 0)
    start, count = number_at(data, 32, 8), number_at(data, 56, 2)
    ask(number_at(data, 54, 2) == 56 and 0 < count <= 128 and start + 56 * count <= len(data), 7, 0)
    headers = []
    for at in range(start, start + 56 * count, 56):
        kind, flags, offset, vaddr, _, filesz, memsz, align = struct.unpack_from("<IIQQQQQQ", data, at)
        headers.append(Header(kind, flags, offset, vaddr, filesz, memsz, align))
    return headers


def fits(data, h):
    return (
        h.filesz <= h.memsz
        and (h.filesz == 0 or h.offset + h.filesz <= len(data))
        and h.vaddr + h.memsz <= 1 << 32
        and h.align & (h.align - 1) == 0
        and (h.align < 2 or (h.vaddr - h.offset) % h.align == 0)
    )


def check_segments(data, headers):
    memory = Memory(data, headers)
    last_page, seen = -1, Counter()
    for number, h in enumerate(headers):
        mapped = h.kind == LOAD and h.memsz > 0
        seen[h.kind] += 1
        if mapped or h.kind == STORAGE:
            ask(fits(data, h), 8, number)
        if mapped:
            ask(h.vaddr // 4096 > last_page, 8, number)
            last_page = (h.vaddr + h.memsz - 1) // 4096
        if h.kind in (DYNAMIC, STORAGE):
            ask(seen[h.kind] == 1, 8, number)
        if h.kind == STORAGE:
            initial = memory.bytes_at(h.vaddr, h.filesz)
            ask(initial is not None and h.memsz <= 1 << 20 and h.align <= 1 << 20, 8, number)
    ask(memory.segments, 8, len(headers))
    ask(len(data) <= 8 << 20, 9, 0)
    return memory


# ---- rules 10 and 11


def tags_of(memory, headers):
    tables = [h for h in headers if h.kind == DYNAMIC]
    ask(tables, 10, 0)
    table = memory.bytes_at(tables[0].vaddr, tables[0].filesz)
    ask(table is not None, 10, 0)
    tags = []
    for at in range(0, len(table) // 16 * 16, 16):
        tag, value = struct.unpack_from("<QQ", table, at)
        if tag == NULL:
            return tags
        tags.append((tag, value))
    raise Broken(10, 0)


def sysv_table(memory, last):
    rest = memory.rest_from(last[HASH]) if HASH in last else None
    if rest is None or len(rest) < 8:
        return None
    buckets, chains = struct.unpack_from("<II", rest)
    if len(rest) < 8 + 4 * (buckets + chains):
        return None
    words = struct.unpack_from(f"<{buckets + chains}I", rest, 8)
    return words[:buckets], words[buckets:]


def gnu_table(memory, last):
    rest = memory.rest_from(last[GNU_HASH]) if GNU_HASH in last else None
    if rest is None or len(rest) < 16:
        return None
    bucket_count, first, bloom_count, shift = struct.unpack_from("<IIII", rest)
    chains_at = 16 + 8 * bloom_count + 4 * bucket_count
    if len(rest) < chains_at:
        return None
    bloom = struct.unpack_from(f"<{bloom_count}Q", rest, 16)
    buckets = struct.unpack_from(f"<{bucket_count}I", rest, 16 + 8 * bloom_count)
    greatest = max(buckets, default=0)
    if greatest == 0:
        return Gnu(first, shift, bloom, buckets, (), first)
    if greatest < first:
        return None
    words = struct.unpack_from(f"<{(len(rest) - chains_at) // 4}I", rest, chains_at)
    for place in range(greatest - first, len(words)):
        if words[place] & 1:
            return Gnu(first, shift, bloom, buckets, words[: place + 1], first + place + 1)
    return None


def check_sized(memory, last, tag, size_tag, unit, is_good=True):
    """A table of entries of so many bytes; one of size 0 isn't there."""
    if tag not in last:
        return
    ask(size_tag in last, 11, tag)
    size = last[size_tag]
    ask(size == 0 or (is_good and size % unit == 0 and memory.bytes_at(last[tag], size) is not None), 11, tag)


def check_tables(memory, last, sysv, gnu):
    """Tables in the order of their tags."""
    if HASH in last:
        ask(sysv is not None and sysv[0], 11, HASH)
    else:
        ask(GNU_HASH in last, 11, HASH)
    ask(STRTAB in last and last.get(STRSZ) and memory.bytes_at(last[STRTAB], last[STRSZ]) is not None, 11, STRTAB)
    ask(SYMTAB in last and last.get(SYMENT) == 24, 11, SYMTAB)
    if RELA in last:
        ask(RELASZ in last, 11, RELA)
        rela = rela_span(last)
        ask(rela is None or (last.get(RELAENT) == 24 and rela[1] % 24 == 0 and memory.bytes_at(*rela) is not None), 11, RELA)
    check_sized(memory, last, JMPREL, PLTRELSZ, 24, last.get(PLTREL) == RELA and PLTGOT in last)
    for tag, size_tag in ARRAYS:
        check_sized(memory, last, tag, size_tag, 8, last.get(tag, 0) % 8 == 0)
    check_sized(memory, last, RELR, RELRSZ, 8, last.get(RELRENT) == 8)
    if GNU_HASH in last:
        ask(gnu is not None and gnu.bloom and gnu.buckets, 11, GNU_HASH)
    ask(VERDEF not in last or VERDEFNUM in last, 11, VERDEF)
    ask(VERNEED not in last or VERNEEDNUM in last, 11, VERNEED)


def span_of(last, tag, size_tag):
    return (last[tag], last[size_tag]) if tag in last and last.get(size_tag) else None


def relocs_at(memory, span):
    relocs = []
    for at in range(0, span[1] if span else 0, 24):
        place, info, addend = struct.unpack_from("<QQq", memory.bytes_at(*span), at)
        relocs.append(Reloc(place, info & 0xFFFFFFFF, info >> 32, addend))
    return relocs


def rela_span(last):
    """The table of the relocations, less that of slots at its end; none where nothing is left."""
    rela, slots = span_of(last, RELA, RELASZ), span_of(last, JMPREL, PLTRELSZ)
    if rela and slots and slots[0] >= rela[0] and sum(rela) == sum(slots):
        rela = (rela[0], slots[0] - rela[0]) if slots[0] > rela[0] else None
    return rela


def both_relocs(memory, last):
    """The relocations, less those of slots at their end, and those of slots."""
    return relocs_at(memory, rela_span(last)), relocs_at(memory, span_of(last, JMPREL, PLTRELSZ))


# ---- rules 12 to 14


def string_at(strings, offset):
    end = strings.find(b"\0", offset, offset + 4096) if offset < len(strings) else -1
    return None if end < 0 else strings[offset:end]


def names_of(strings, tags):
    last_soname = max((at for at, (tag, _) in enumerate(tags) if tag == SONAME), default=None)
    needed, soname = [], None
    for at, (tag, offset) in enumerate(tags):
        if tag == NEEDED or at == last_soname:
            name = string_at(strings, offset)
            ask(name is not None, 12, offset)
            if tag == NEEDED:
                needed.append(name)
            else:
                soname = name
    return needed, soname


def symbols_of(memory, strings, start, count):
    table, symbols = memory.bytes_at(start, 24 * count), []
    for at in range(0, 24 * count, 24):
        offset, info, other, section, value, size = struct.unpack_from("<IBBHQQ", table, at)
        name = string_at(strings, offset)
        ask(name is not None, 12, offset)
        symbols.append(Symbol(name, info, other, section, value, size))
    return symbols


def check_symbols(symbols, has_storage):
    for number, s in enumerate(symbols):
        ask(s.info >> 4 in (0, 1, 2, 10), 13, number)
        ask(s.section == 0 or s.info & 15 != 6 or has_storage, 13, number)


def packed_places(table):
    places, next_place = [], 0
    for at in range(0, len(table), 8):
        word = number_at(table, at, 8)
        if word & 1 == 0:
            places.append(word)
            next_place = word + 8
        else:
            places += [next_place + 8 * (bit - 1) for bit in range(1, 64) if word >> bit & 1]
            next_place += 504
    return places


def bytes_named(symbols, reloc):
    if reloc.kind == R_NONE:
        return range(0)
    size = 8
    if reloc.kind == R_COPY:
        size = symbols[reloc.symbol].size if reloc.symbol < len(symbols) else 0
    return range(reloc.place, reloc.place + size)


def check_relocs(memory, symbols, relocs, table, places):
    """Answers the bytes that they name."""
    named = set()

    def take(span, number):
        ask(named.isdisjoint(span), 14, number)
        named.update(span)

    for number, r in enumerate(relocs):
        ask(r.symbol < len(symbols) and r.kind != R_JUMP_SLOT, 14, number)
        ask(r.kind != R_COPY or r.symbol != 0, 14, number)
        span = bytes_named(symbols, r)
        ask(r.kind in (R_NONE, R_COPY) or r.place % 8 == 0, 14, number)
        ask(memory.is_writable(r.place, len(span) if r.kind != R_COPY else symbols[r.symbol].size), 14, number)
        take(span, number)
    ask(not table or number_at(table, 0, 8) & 1 == 0, 14, len(relocs))
    for number, place in enumerate(places, len(relocs)):
        ask(place % 8 == 0 and memory.is_writable(place, 8), 14, number)
        take(range(place, place + 8), number)
    return named


# ---- rules 15 and 16


def check_features(memory, last, symbols, kinds, fixed_library, is_program):
    features = {
        1: any(s.section and s.info & 15 == 10 for s in symbols),
        2: R_IRELATIVE in kinds,
        3: any(s.info >> 4 == 10 for s in symbols),
        4: R_TLSDESC in kinds,
        5: R_32 in kinds,
        6: REL in last,
        7: TEXTREL in last or last.get(FLAGS, 0) & 4,
        8: not is_program and R_COPY in kinds,
        9: kinds - LINKED_TYPES,
        11: any(h.flags & 3 == 3 for h in memory.segments),
        12: fixed_library,
    }
    for number, is_there in features.items():
        ask(not is_there, 15, number)


def check_slots(memory, last, symbols, slots, named):
    counts = Counter(byte for r in slots for byte in bytes_named(symbols, r))
    for number, r in enumerate(slots):
        ask(r.kind == R_JUMP_SLOT and 0 < r.symbol < len(symbols), 16, number)
        word = memory.bytes_at(r.place, 8)
        ask(r.place % 8 == 0 and memory.is_writable(r.place, 8) and word is not None, 16, number)
        target = number_at(word, 0, 8)
        ask(target % 4 == 0 and memory.is_code(target), 16, number)
        own = range(r.place, r.place + 8)
        ask(all(byte not in named and counts[byte] == 1 for byte in own), 16, number)
    if slots:
        start = last[PLTGOT]
        own = range(start, start + 16)
        ask(start % 8 == 0 and memory.is_writable(start, 16), 16, len(slots))
        ask(all(byte not in named and byte not in counts for byte in own), 16, len(slots))


# ---- rules 17 and 18


def indexes_of(memory, last, count):
    if VERSYM not in last:
        return None
    table = memory.bytes_at(last[VERSYM], 2 * count)
    ask(table is not None, 17, VERSYM)
    return struct.unpack(f"<{count}H", table)


def definitions_of(memory, last, strings):
    definitions, at, count = [], last.get(VERDEF), last.get(VERDEFNUM, 0)
    if at is None:
        return definitions
    ask(count <= MOST_RECORDS, 17, VERDEF)
    for number in range(count):
        record = memory.bytes_at(at, 20)
        ask(record is not None, 17, VERDEF)
        version, flags, index, names, _, first, following = struct.unpack("<HHHHIII", record)
        ask(version == 1 and names and (following or number == count - 1), 17, VERDEF)
        name_record = memory.bytes_at(at + first, 8)
        name = string_at(strings, number_at(name_record, 0, 4)) if name_record else None
        ask(name is not None, 17, VERDEF)
        definitions.append(Definition(index, flags, name))
        at += following
    return definitions


def needs_of(memory, last, strings):
    needs, at, count = [], last.get(VERNEED), last.get(VERNEEDNUM, 0)
    if at is None:
        return needs
    ask(count <= MOST_RECORDS, 17, VERNEED)
    for number in range(count):
        record = memory.bytes_at(at, 16)
        ask(record is not None, 17, VERNEED)
        version, versions, file_offset, first, following = struct.unpack("<HHIII", record)
        file = string_at(strings, file_offset)
        ask(version == 1 and versions and (following or number == count - 1), 17, VERNEED)
        ask(file is not None and len(needs) + versions <= MOST_RECORDS, 17, VERNEED)
        needs += versions_needed(memory, strings, file, at + first, versions)
        at += following
    return needs


def versions_needed(memory, strings, file, at, count):
    needs = []
    for number in range(count):
        record = memory.bytes_at(at, 16)
        ask(record is not None, 17, VERNEED)
        _, flags, index, offset, following = struct.unpack("<IHHII", record)
        name = string_at(strings, offset)
        ask(name is not None and (following or number == count - 1), 17, VERNEED)
        needs.append(Need(index & 0x7FFF, flags, file, name))
        at += following
    return needs


def check_indexes(indexes, definitions, needs):
    there = {0, 1} | {d.index for d in definitions} | {n.index for n in needs}
    for number, index in enumerate(indexes or ()):
        ask(index & 0x7FFF in there, 18, number)


# ---- rule 19


def gnu_hash(name):
    value = 5381
    for byte in name:
        value = (33 * value + byte) & 0xFFFFFFFF
    return value


def sysv_hash(name):
    value = 0
    for byte in name:
        value = (value << 4) + byte
        high = value & 0xF0000000
        value = (value ^ high >> 24) & ~high & 0xFFFFFFFF
    return value


def is_exported(s):
    kind = s.info & 15
    return (
        s.section != 0
        and s.info >> 4 != 0
        and s.other & 3 not in (1, 2)
        and kind in (0, 1, 2, 5, 6)
        and (s.value != 0 or s.section == 0xFFF1 or kind == 6)
    )


def check_gnu(gnu, symbols):
    def walk(start):
        for index in range(start, len(symbols)):
            ask(gnu.first <= index < gnu.first + len(gnu.chain), 19, 0)
            yield index
            if gnu.chain[index - gnu.first] & 1:
                return
        raise Broken(19, 0)

    walks = [set(walk(start)) if start else set() for start in gnu.buckets]
    for index in range(gnu.first, len(symbols)):
        if is_exported(symbols[index]):
            value = gnu_hash(symbols[index].name)
            word = gnu.bloom[value // 64 % len(gnu.bloom)]
            ask(word >> value % 64 & 1 and word >> (value >> gnu.shift) % 64 & 1, 19, index)
            ask(index in walks[value % len(gnu.buckets)], 19, index)
            ask(gnu.chain[index - gnu.first] >> 1 == value >> 1, 19, index)


def check_sysv(sysv, symbols):
    buckets, chain = sysv

    def walk(index):
        for _ in range(len(chain) + 1):
            if index == 0:
                return
            ask(index < len(chain), 19, 0)
            yield index
            index = chain[index]
        raise Broken(19, 0)

    walks = [set(walk(start)) for start in buckets]
    for index in range(1, len(symbols)):
        if is_exported(symbols[index]):
            ask(index in walks[sysv_hash(symbols[index].name) % len(buckets)], 19, index)


# ---- the text


def written(name):
    if name is None:
        return "-"
    if name in (b"", b"-"):
        return {b"": "%", b"-": "%2d"}[name]
    plain = set(range(0x21, 0x7F)) - set(b"%,:=@")
    return "".join(chr(byte) if byte in plain else f"%{byte:02x}" for byte in name)


def version_name(index, definitions, needs):
    for d in definitions:
        if d.index == index and d.flags & 1 == 0:
            return d.name
    return next((n.name for n in needs if n.index == index), None)


def read_object(data, is_program):
    """The object that a file is, as the program or as a library."""
    headers = headers_of(data)
    is_exec = number_at(data, 16, 2) == 2
    memory = check_segments(data, headers)
    tags = tags_of(memory, headers)
    last = dict(tags)
    sysv, gnu = sysv_table(memory, last), gnu_table(memory, last)
    check_tables(memory, last, sysv, gnu)
    relocs, slots = both_relocs(memory, last)
    count = len(sysv[1]) if sysv else max([gnu.count] + [r.symbol + 1 for r in relocs + slots])
    ask(count and memory.bytes_at(last[SYMTAB], 24 * count) is not None, 11, SYMTAB)
    strings = memory.bytes_at(last[STRTAB], last[STRSZ])
    needed, soname = names_of(strings, tags)
    symbols = symbols_of(memory, strings, last[SYMTAB], count)
    check_symbols(symbols, any(h.kind == STORAGE for h in headers))
    table = memory.bytes_at(last[RELR], last[RELRSZ]) if last.get(RELRSZ) and RELR in last else b""
    places = packed_places(table)
    named = check_relocs(memory, symbols, relocs, table, places)
    kinds = {r.kind for r in relocs + slots}
    check_features(memory, last, symbols, kinds, is_exec and not is_program, is_program)
    check_slots(memory, last, symbols, slots, named)
    indexes = indexes_of(memory, last, count)
    definitions, needs = definitions_of(memory, last, strings), needs_of(memory, last, strings)
    check_indexes(indexes, definitions, needs)
    check_gnu(gnu, symbols) if gnu else check_sysv(sysv, symbols)
    is_symbolic = SYMBOLIC in last or last.get(FLAGS, 0) & DF_SYMBOLIC != 0
    first = gnu.first if gnu else 1
    return Object(
        is_exec, soname, needed, symbols, first, indexes, definitions, needs, relocs, places, slots, is_symbolic
    )


def index_of(o, symbol):
    """The version index of a symbol, without the bit that hides it."""
    return o.indexes[symbol] & 0x7FFF if o.indexes else 0


def object_text(o):
    lines = [f"object {'exec' if o.is_exec else 'dyn'} soname={written(o.soname)}"]
    lines += [f"needed {written(name)}" for name in o.needed]
    for number, s in enumerate(o.symbols[1:], 1):
        version = version_name(index_of(o, number), o.definitions, o.needs)
        defined = "def" if s.section else "undef"
        lines.append(f"symbol {number} {written(s.name)} {written(version)} 0x{s.value:x} {defined}")
    for number, r in enumerate(o.relocs):
        lines.append(f"reloc {number} {r.kind} 0x{r.place:x} {r.symbol} {r.addend}")
    lines += [f"relr {number} 0x{place:x}" for number, place in enumerate(o.places)]
    lines += [f"slot {number} 0x{r.place:x} {r.symbol}" for number, r in enumerate(o.slots)]
    return "\n".join(lines + ["end 0 dumped", ""])


def dump(data, name):
    """The text of `ldso dump NAME` where these are the bytes of the file."""
    try:
        return object_text(read_object(data, True))
    except Broken as broken:
        return f"end 126 not-accepted {name} {broken.rule} {broken.number}\n"
