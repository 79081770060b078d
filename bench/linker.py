"""What `ldso bind` should print over the files of a folder, worked out a second time, in plain Python.
bench/link_fuzz.py compares the two."""

from oracle import R_COPY, Broken, index_of, is_exported, read_object, version_name, written

LINKER_NAME = b"ldso.so.1"
LINKER_SYMBOLS = [b"", b"dlopen", b"dlmopen", b"dlsym", b"dlvsym", b"dlclose", b"dlerror", b"__tls_get_addr"]
UNBOUND_TYPES = (0, 3)
WEAK_NEED, BASE = 2, 1


class Refused(Exception):
    """Why a program isn't bound: the status, and the words after it."""


class Loaded:
    """An object at its path, with the serials that its names found."""

    def __init__(self, serial, path, record):
        self.serial, self.path, self.record = serial, path, record
        self.found = []


class Load:
    """A program and all that it needs."""

    def __init__(self, root, program, folders=(), preload=()):
        self.root, self.folders, self.objects = root, folders, []
        if self.at_path(program) is None:
            raise Refused(127, "missing-library", program)
        for loaded in self.objects:
            names = (list(preload) if loaded.serial == 1 else []) + loaded.record.needed
            loaded.found = [self.serial_of(name) for name in names]
        self.check_versions()

    def at_path(self, path):
        """The serial of the object at a path, which is read where it is new; None where no file is."""
        for loaded in self.objects:
            if loaded.path == path:
                return loaded.serial
        file = self.root / path.decode()
        if not file.exists():
            return None
        if file.is_dir():
            raise Refused(121, "read-fault", path)
        try:
            record = read_object(file.read_bytes(), not self.objects)
        except Broken as broken:
            raise Refused(126, "not-accepted", path, broken.rule, broken.number) from None
        self.objects.append(Loaded(len(self.objects) + 1, path, record))
        return len(self.objects)

    def serial_of(self, name):
        if name == LINKER_NAME:
            return 0
        paths = [name]
        if b"/" not in name:
            for loaded in self.objects:
                if loaded.record.soname == name:
                    return loaded.serial
            paths = [folder + b"/" + name for folder in self.folders]
        for path in paths:
            serial = self.at_path(path)
            if serial is not None:
                return serial
        raise Refused(127, "missing-library", name)

    def check_versions(self):
        for loaded in self.objects:
            needed = loaded.record.needed
            found = dict(reversed(list(zip(needed, loaded.found[len(loaded.found) - len(needed) :]))))
            for need in loaded.record.needs:
                serial = found.get(need.file, 0)
                if need.flags & WEAK_NEED or serial == 0:
                    continue
                definitions = self.objects[serial - 1].record.definitions
                names = [d.name for d in definitions if not d.flags & BASE]
                if definitions and need.name not in names:
                    raise Refused(127, "missing-version", loaded.path, need.file, need.name)

    # ---- choices

    def breadth(self, root):
        order = [root]
        for serial in order:
            for found in self.objects[serial - 1].found:
                if found and found not in order:
                    order.append(found)
        return order

    def scope(self, owner):
        own, everything = self.breadth(owner.serial), self.breadth(1)
        opened = everything if owner.serial in everything else []
        return [owner.serial] * owner.record.is_symbolic + everything + opened + own + [0]

    def choice(self, owner, reloc):
        """The serial and the symbol that a relocation is bound to, or None."""
        symbol = owner.record.symbols[reloc.symbol]
        is_own = symbol.info >> 4 == 0 or symbol.section and symbol.other & 3
        if reloc.symbol == 0 or is_own and reloc.kind != R_COPY:
            return owner.serial, reloc.symbol
        for serial in self.scope(owner):
            if reloc.kind == R_COPY and serial == owner.serial:
                continue
            index = self.pick(serial, symbol.name, wanted_version(owner.record, reloc.symbol))
            if index is not None:
                return serial, index
        return None

    def pick(self, serial, name, version):
        if serial == 0:
            return LINKER_SYMBOLS.index(name) if name in LINKER_SYMBOLS[1:] else None
        return pick(self.objects[serial - 1].record, name, version)

    def refusal(self, owner, reloc):
        """Refuses a reference that has no definition and isn't weak."""
        symbol = owner.record.symbols[reloc.symbol]
        if reloc.kind in UNBOUND_TYPES or symbol.info >> 4 == 2:
            return
        if self.choice(owner, reloc) is None:
            raise Refused(127, "missing-symbol", owner.path, symbol.name, wanted_version(owner.record, reloc.symbol))


def version_of(record, symbol):
    return version_name(index_of(record, symbol), record.definitions, record.needs)


def wanted_version(record, symbol):
    return version_of(record, symbol) if index_of(record, symbol) > 1 else None


def pick(record, name, version):
    """The definition of one object that a reference to the name takes."""
    offers = [
        index
        for index in range(record.first, len(record.symbols))
        if is_exported(record.symbols[index])
        and record.symbols[index].name == name
        and (record.indexes is None or index_of(record, index))
    ]
    if record.indexes is None:
        return offers[0] if offers else None
    if version is not None:
        fitting = [i for i in offers if version_of(record, i) == version or record.indexes[i] == 1]
        return fitting[0] if fitting else None
    fitting = [i for i in offers if index_of(record, i) in (1, 2)]
    seen = [i for i in offers if record.indexes[i] < 0x8000]
    return fitting[0] if fitting else seen[0] if len(seen) == 1 else None


def bound_text(load):
    lines = [f"object {o.serial} {written(o.path)}" for o in load.objects]
    for owner in load.objects:
        for number, slot in enumerate(owner.record.slots):
            symbol = owner.record.symbols[slot.symbol]
            chosen = load.choice(owner, slot)
            unbound = "weak" if symbol.info >> 4 == 2 else "missing"
            end = unbound if chosen is None else f"{chosen[0]}.{chosen[1]}"
            version = written(wanted_version(owner.record, slot.symbol))
            lines.append(f"slot {owner.serial} {number} {written(symbol.name)} {version} -> {end}")
    return "\n".join(lines + ["end 0 bound", ""])


def bind(root, program, folders=(), preload=(), now=False):
    """The text of `ldso bind` in a folder."""
    try:
        load = Load(root, program, folders, preload)
        for owner in load.objects:
            for reloc in owner.record.relocs + owner.record.slots * now:
                load.refusal(owner, reloc)
        return bound_text(load)
    except Refused as refused:
        status, reason, *words = refused.args
        words = [word if isinstance(word, int) else written(word) for word in words]
        return " ".join(map(str, ["end", status, reason, *words])) + "\n"
