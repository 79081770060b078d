"""What the samples print under `ldso turns`, worked out a second time: which events there are was written down by
hand, below, from the samples' sources and the rules; numbers and addresses come from the objects, as bench/oracle.py
reads them. Of `bind` and `dump` it is what bench/linker.py and bench/oracle.py say. Run by hand, once samples/build has made the objects anew:

    python3 bench/sample_texts.py crates/test_commands/data >crates/test_commands/data/samples.txt
"""

import os
import sys
from pathlib import Path

import linker
import oracle
from oracle import number_at, read_object

PAGE, FIRST, LAST = 4096, 0x10000, 0x80F000
LINKER = ["", "dlopen", "dlmopen", "dlsym", "dlvsym", "dlclose", "dlerror", "__tls_get_addr"]


class Loaded:
    def __init__(self, path, data, is_program):
        self.path, self.record = path, read_object(data, is_program)
        loads = [h for h in oracle.headers_of(data) if h.kind == oracle.LOAD and h.memsz]
        self.low = min(h.vaddr for h in loads) // PAGE * PAGE
        high = max(h.vaddr + h.memsz for h in loads)
        self.pages = (high - self.low + PAGE - 1) // PAGE
        self.storage = next((h for h in oracle.headers_of(data) if h.kind == oracle.STORAGE), None)
        self.entry = number_at(data, 24, 8)
        self.base = self.serial = self.module = None

    def slot(self, name):
        numbers = [n for n, r in enumerate(self.record.slots) if self.record.symbols[r.symbol].name == name.encode()]
        return numbers[0]

    def symbol(self, name, version=None):
        """The index of a definition. A sample has one of a name, but where a version is named."""
        for index, symbol in enumerate(self.record.symbols):
            if symbol.name == name.encode() and symbol.section:
                at = oracle.index_of(self.record, index)
                named = oracle.version_name(at, self.record.definitions, self.record.needs)
                if version is None or named == version.encode():
                    return index
        raise KeyError(name)

    def address(self, name, version=None):
        return self.base - self.low + self.record.symbols[self.symbol(name, version)].value


class Run:
    """One run: its journal grows by calls, each of which is one event or a few."""

    def __init__(self, top, sample, title, words, harts=1):
        self.top, self.sample, self.title, self.words, self.harts = top, sample, title, words, harts
        self.lines, self.files, self.objects = [], [], {}
        self.used, self.serials, self.grants, self.open = set(), 0, 0, {}
        self.modules = {}

    # Memory.
    def reserve(self, pages):
        at = FIRST
        while any(at + PAGE * n in self.used for n in range(pages)):
            at += PAGE
        self.used |= {at + PAGE * n for n in range(pages)}
        return at

    def read(self, path, is_program=False):
        with open(os.path.join(self.top, "samples", self.sample, path), "rb") as file:
            data = file.read()
        self.files.append(path)
        return Loaded(path, data, is_program)

    def load(self, *paths):
        """New objects, in load order: their entries of the line."""
        entries = []
        for path in paths:
            loaded = self.read(path, self.serials == 0)
            self.serials += 1
            loaded.serial, loaded.base = self.serials, self.reserve(loaded.pages)
            self.objects[path] = loaded
            entries.append(f"{loaded.serial}:{path}@0x{loaded.base:x}")
            if loaded.storage:
                loaded.module = next(n for n in range(1, 99) if n not in self.modules)
                self.modules[loaded.module] = loaded
                entries[-1] += f"/{loaded.module}"
        return entries

    # Events.
    def put(self, line):
        """An event: the grants whose harts are done are settled first, in order of hart number."""
        for hart in sorted(self.open):
            self.lines.append(self.open[hart])
        self.open = {}
        self.lines.append(line)

    def start(self, *paths, flags=0x101, names=()):
        entries = self.load(*paths)
        for entry, path in zip(range(len(entries)), paths):
            if self.objects[path].module:
                entries[entry] += "+0x0"
        self.put(f"open h=0 ns=0 name={paths[0]} flags=0x{flags:x} ok in=0 root=1 new={','.join(entries)}")
        for hart in range(self.harts):
            self.reserve(16)
        if any(self.objects[path].module for path in paths):
            for hart in range(self.harts):
                self.reserve(1)
        for hart, (name, path) in enumerate(names, 1):
            loaded = self.objects[path]
            self.put(
                f"sym h={hart} ns=0 handle=0x0 name={name} ver=- ok {loaded.serial}.{loaded.symbol(name)}"
                f" 0x{loaded.address(name):x}"
            )

    def init(self, *paths, h=0):
        for path in paths:
            self.put(f"init h={h} o={self.objects[path].serial}")

    def fini(self, *paths, h=0):
        for path in paths:
            self.put(f"fini h={h} o={self.objects[path].serial}")

    def grant(self, owner, name, target, h=0, version=None, is_settled=True):
        loaded = self.objects[owner]
        if target == "linker":
            found = f"0.{LINKER.index(name)} 0x{LAST + 16 * LINKER.index(name):x}"
        else:
            other = self.objects[target]
            found = f"{other.serial}.{other.symbol(name, version)} 0x{other.address(name, version):x}"
        self.grants += 1
        self.put(f"grant g={self.grants} h={h} o={loaded.serial} slot={loaded.slot(name)} -> {found}")
        if is_settled:
            self.open[h] = f"bound g={self.grants}"

    def call(self, owner, name, h=0):
        """A call of a function of the linker's own: its slot is bound at the first."""
        if (owner, name) not in self.objects:
            self.objects[(owner, name)] = True
            self.grant(owner, name, "linker", h=h)

    # What is opened with RTLD_NOW, as all samples do, has its slots bound at load: no grants of it.
    def opens(self, owner, name, *paths, flags=2, ns="0", into=0, refused=None, absent=False, old=None, h=0):
        asked = f"open h={h} ns={ns} name={name} flags=0x{flags:x} "
        if absent:
            return self.put(asked + "absent")
        if refused:
            return self.put(asked + f"no {refused}")
        entries = self.load(*paths)
        root = self.objects[old or paths[0]].serial
        self.put(asked + f"ok in={into} root={root} new={','.join(entries) or '-'}")

    def sym(self, handle, name, path=None, refused=None, version=None, found=None, address=None, h=0):
        said = f"sym h={h} ns=0 handle=0x{handle:x} name={name} ver={version or '-'} "
        if refused:
            return self.put(said + f"no {refused}")
        loaded = self.objects[path]
        index, address = loaded.symbol(name, found or version), address or loaded.address(name, found or version)
        self.put(said + f"ok {loaded.serial}.{index} 0x{address:x}")

    def told(self, owner, text, h=0):
        self.call(owner, "dlerror", h=h)
        self.put(f"told h={h} {text}")

    def wrote(self, owner, text, h=0, printf="lib/libguest.so"):
        if printf and (owner, "printf") not in self.objects:
            self.objects[(owner, "printf")] = True
            self.grant(owner, "printf", printf, h=h)
        for at in range(0, len(text), 256):
            piece = text[at : at + 256].encode()
            self.put(f"wrote h={h} n={len(piece)} {piece.hex()}")

    def closes(self, owner, handle, *paths, refused=None, h=0, order=None):
        """dlclose, and what then goes: destructors in this order, and the unmapping."""
        self.call(owner, "dlclose", h=h)
        said = f"close h={h} handle=0x{handle:x} "
        if refused:
            return self.put(said + f"no {refused}")
        serials = sorted(self.objects[path].serial for path in paths)
        self.put(said + f"ok dying={','.join(map(str, serials)) or '-'}")
        if paths and order is None:
            self.gone(*paths, h=h)

    def gone(self, *paths, h=0):
        self.fini(*paths, h=h)
        self.unmapped(*paths, h=h)

    def unmapped(self, *paths, h=0):
        serials = sorted(self.objects[path].serial for path in paths)
        self.put(f"unmapped h={h} set={','.join(map(str, serials))}")
        for path in paths:
            loaded = self.objects.pop(path)
            self.used -= {loaded.base + PAGE * n for n in range(loaded.pages)}
            if loaded.module:
                del self.modules[loaded.module]

    def tls(self, path, h=0):
        """A hart's block of a library that was opened late."""
        loaded = self.objects[path]
        at = self.reserve((loaded.storage.memsz + PAGE - 1) // PAGE)
        block = at + loaded.storage.vaddr % max(loaded.storage.align, 1)
        self.put(f"tls h={h} o={loaded.serial} 0x{block:x}")
        return block

    def ended(self, end, h=0):
        self.put(f"ended h={h} {end}")

    def end(self, text):
        for hart in sorted(self.open):
            self.lines.append(self.open[hart])
        self.lines.append(f"end {text}")

    def text(self, files=()):
        lines = [f"example {self.sample}: {self.title}"]
        for path in dict.fromkeys(self.files + list(files)):
            lines += [f"    file {path}", f"    load samples/{self.sample}/{path}"]
        lines.append(f"    $ {self.words}")
        lines += [f"    | {line}" for line in self.lines]
        return "\n".join(lines) + "\n"


GUEST = "lib/libguest.so"


def hello(top):
    run = Run(top, "hello", "a program that prints", "turns --lib lib rr hello")
    run.start("hello", GUEST)
    run.init(GUEST, "hello")
    run.wrote("hello", "hello\n")
    run.ended("exit 3")
    run.fini("hello", GUEST)
    run.end("3 exit")
    return run.text()


def plugins(top):
    run = Run(top, "plugins", "a host opens plug-ins, and says why some can't be used", "turns --lib lib rr host")
    host = "host"
    run.start(host, GUEST)
    run.init(GUEST, host)

    run.call(host, "dlopen")
    run.opens(host, "double.so", "lib/double.so")
    run.init("lib/double.so")
    run.call(host, "dlsym")
    run.sym(3, "plugin", "lib/double.so")
    run.wrote(host, "double.so: the double of 7 is 14\n")
    run.closes(host, 3, "lib/double.so")

    run.opens(host, "cube.so", "lib/cube.so", "lib/libpower.so")
    run.init("lib/libpower.so", "lib/cube.so")
    run.sym(4, "plugin", "lib/cube.so")
    run.wrote(host, "cube.so: the cube of 7 is 343\n")
    run.closes(host, 4, "lib/cube.so", "lib/libpower.so")

    def fails(name, why):
        run.opens(host, name, refused=why)
        run.told(host, why)
        run.wrote(host, f"{name}: {why}\n")

    fails("torn.so", "missing-symbol lib/torn.so nowhere -")
    run.opens(host, "empty.so", "lib/empty.so")
    run.init("lib/empty.so")
    why = "missing-symbol lib/empty.so plugin -"
    run.sym(6, "plugin", refused=why)
    run.told(host, why)
    run.wrote(host, f"empty.so: {why}\n")
    run.closes(host, 6, "lib/empty.so")
    fails("absent.so", "missing-library absent.so")
    fails("text.so", "not-accepted lib/text.so 2 0")
    run.closes(host, 99, refused="bad-handle 0x63")
    run.told(host, "bad-handle 0x63")
    run.wrote(host, "closing what isn't open: bad-handle 0x63\n")
    run.ended("exit 2")
    run.fini(host, GUEST)
    run.end("2 exit")
    return run.text(["lib/torn.so", "lib/text.so"])


def versions(top):
    texts = []
    for prog, version, called in (("first", "CLOCK_1", 300), ("second", "CLOCK_2", 3000)):
        run = Run(top, "versions", f"the {prog} version", f"turns --lib lib rr {prog}")
        clock = "lib/libclock.so"
        run.start(prog, clock, GUEST)
        run.init(clock, GUEST, prog)
        run.grant(prog, "ticks", clock, version=version)
        run.wrote(prog, f"called: {called}\n")
        run.call(prog, "dlsym")
        run.sym(0, "ticks", clock, found="CLOCK_2")
        run.wrote(prog, "looked up: 3000\n")
        run.call(prog, "dlvsym")
        run.sym(0, "ticks", clock, version="CLOCK_1")
        run.wrote(prog, "of CLOCK_1: 300\n")
        run.sym(0, "ticks", clock, version="CLOCK_2")
        run.wrote(prog, "of CLOCK_2: 3000\n")
        why = "missing-symbol - ticks CLOCK_3"
        run.sym(0, "ticks", version="CLOCK_3", refused=why)
        run.told(prog, why)
        run.wrote(prog, f"of CLOCK_3: {why}\n")
        run.ended("exit 0")
        run.fini(prog, GUEST, clock)
        run.end("0 exit")
        texts.append(run.text())
    run = Run(top, "versions", "the second version is asked of the first library", "turns --lib old rr second")
    why = "missing-version second libclock.so CLOCK_2"
    run.put(f"open h=0 ns=0 name=second flags=0x101 no {why}")
    run.end(f"127 {why}")
    # The C library is found too, before versions are asked for.
    texts.append(run.text(["second", "old/libclock.so", GUEST]).replace("file lib/libguest.so", "file old/libguest.so"))
    return "\n".join(texts)


def lazy(top):
    part = "lib/libpart.so"
    run = Run(top, "lazy", "a function that is never called needs no definition", "turns --lib lib rr prog")
    run.start("prog", part, GUEST)
    run.init(part, GUEST, "prog")
    for number in (1, 2, 3):
        if number == 1:
            run.grant("prog", "there", part)
        run.wrote("prog", f"there({number}) is {10 * number}\n")
    run.ended("exit 0")
    run.fini("prog", GUEST, part)
    run.end("0 exit")
    now = Run(top, "lazy", "it needs one where slots are bound at load", "turns --lib lib --now rr prog")
    why = "missing-symbol prog gone -"
    now.put(f"open h=0 ns=0 name=prog flags=0x102 no {why}")
    now.end(f"127 {why}")
    whole = Run(top, "lazy", "and has one in the whole library", "turns --lib whole:lib --now rr prog")
    whole.start("prog", "whole/libpart.so", GUEST, flags=0x102)
    whole.init("whole/libpart.so", GUEST, "prog")
    whole.objects[("prog", "printf")] = True
    for number in (1, 2, 3):
        whole.wrote("prog", f"there({number}) is {10 * number}\n")
    whole.ended("exit 0")
    whole.fini("prog", GUEST, "whole/libpart.so")
    whole.end("0 exit")
    return "\n".join([run.text(), now.text(["prog", part, GUEST]), whole.text()])


def thread_local(top):
    host, counter = "host", "lib/libcounter.so"
    run = Run(top, "thread-local", "three harts count, each with its own counter",
              "turns --lib lib --harts work,work rr host", harts=3)
    run.start(host, GUEST, names=[("work", host), ("work", host)])
    run.init(GUEST, host)
    run.call(host, "dlopen")
    run.opens(host, "libcounter.so", counter)
    run.init(counter)
    run.call(host, "dlsym")
    run.sym(3, "count", counter)
    # Each hart but the first has ended before the next one's library is entered: it has 9 turns to go, the next one more.
    for hart, total in ((0, 1101), (1, 1203), (2, 1306)):
        block = run.tls(counter, h=hart)
        first = block if hart == 0 else first
        run.wrote(host, f"hart {hart}: the sum is {total}\n", h=hart)
        if hart:
            run.ended("exit 0", h=hart)
    run.sym(3, "counter", counter, address=first)
    run.wrote(host, "the first hart's counter is 101\n")
    run.closes(host, 3, counter)
    run.ended("exit 0")
    run.fini(host, GUEST)
    run.end("0 exit")
    return run.text()


def order(top):
    prog = "prog"
    left, right, base, late = (f"lib/lib{name}.so" for name in ("left", "right", "base", "late"))
    run = Run(top, "order", "constructors and destructors of a diamond", "turns --lib lib rr prog")
    # Breadth-first: what the program needs, in its order, and then what those need.
    run.start(prog, left, right, GUEST, base)
    run.init(GUEST)
    for path, name in ((base, "base"), (left, "left"), (right, "right"), (prog, "prog")):
        run.wrote(path, f"{name} begins\n")
        run.init(path)
    run.grant(prog, "left", left)
    run.grant(left, "base", base)
    run.grant(prog, "right", right)
    run.grant(right, "base", base)
    run.call(prog, "dlopen")
    run.opens(prog, "liblate.so", late)
    run.objects[(late, "printf")] = True
    run.wrote(late, "late begins\n")
    run.init(late)
    run.call(prog, "dlsym")
    run.sym(6, "late", late)
    run.closes(prog, 6, late, order=())
    run.wrote(late, "late ends\n")
    run.fini(late)
    run.unmapped(late)
    run.wrote(prog, "main returns\n")
    run.ended("exit 43")
    for path, name in ((prog, "prog"), (right, "right"), (left, "left"), (base, "base")):
        run.wrote(path, f"{name} ends\n")
        run.fini(path)
    run.fini(GUEST)
    run.end("43 exit")
    return run.text()


def preload(top):
    prog, watch = "prog", "lib/libwatch.so"
    run = Run(top, "preload", "malloc and free are watched", "turns --lib lib --preload libwatch.so rr prog")
    run.start(prog, watch, GUEST)
    run.init(GUEST, watch, prog)
    run.grant(prog, "malloc", watch)
    run.wrote(watch, "block 1 of 100 bytes\n")
    run.wrote(watch, "block 2 of 7 bytes\n")
    run.grant(prog, "memset", GUEST)
    run.grant(prog, "free", watch)
    run.wrote(watch, "a block at 112 is freed\n")
    run.wrote(watch, "a block at 0 is freed\n")
    run.ended("exit 0")
    run.fini(prog)
    run.wrote(watch, "2 blocks, 2 freed\n")
    run.fini(watch, GUEST)
    run.end("0 exit")
    return run.text()


def race(top):
    prog, answer = "prog", "lib/libanswer.so"
    # Turns up to a hart's grant: the first hart takes 3 of main, the other 2 of second; then 3 of the entry and 8 of
    # the head of the table. Behind the grant come an exchange, a turn that ends it, two of answer, and the end.
    def begin(title, schedule):
        run = Run(top, "race", title, f"turns --lib lib --harts second {schedule} prog", harts=2)
        run.start(prog, answer, names=[("second", prog)])
        run.init(answer, prog)
        return run

    def close(run):
        run.fini(prog, answer)
        run.end("40 exit")
        return run.text()

    texts = []
    run = begin("turn by turn the second hart is first by one", "rr")
    run.grant(prog, "answer", answer, h=1, is_settled=False)
    run.grant(prog, "answer", answer, h=0, is_settled=False)
    value = run.objects[answer].address("answer")
    run.open = {0: f"lost g=2 saw=0x{value:x}", 1: "bound g=1"}
    run.ended("exit 41", h=1)
    run.ended("exit 40")
    texts.append(close(run))

    run = begin("the second hart is done before the first begins", "1*30")
    run.grant(prog, "answer", answer, h=1)
    run.ended("exit 41", h=1)
    run.ended("exit 40")
    texts.append(close(run))

    run = begin("the second hart is granted the slot first, and loses", "1*14,0*16,1*30")
    run.grant(prog, "answer", answer, h=1, is_settled=False)
    run.grant(prog, "answer", answer, h=0, is_settled=False)
    run.open = {1: f"lost g=1 saw=0x{value:x}"}
    run.ended("exit 41", h=1)
    run.open = {0: "bound g=2"}
    run.ended("exit 40")
    texts.append(close(run))

    run = begin("the first hart has bound it, and hasn't gone on yet", "0*16,1*30")
    run.grant(prog, "answer", answer, h=0, is_settled=False)
    run.ended("exit 41", h=1)
    run.open = {0: "bound g=1"}
    run.ended("exit 40")
    texts.append(close(run))
    return "\n".join(texts)


def stale(top):
    texts = []
    for host in ("host", "host_other"):
        title = "a pointer into a plug-in that is closed" if host == "host" else "and into the one that lies there then"
        run = Run(top, "stale", title, f"turns --lib lib rr {host}")
        one, two = "lib/libone.so", "lib/libtwo.so"
        run.start(host, GUEST)
        run.init(GUEST, host)
        run.call(host, "dlopen")
        run.opens(host, "libone.so", one)
        run.init(one)
        run.call(host, "dlsym")
        run.sym(3, "one", one)
        place = run.objects[one].address("one")
        run.wrote(host, "open: 1\n")
        run.closes(host, 3, one)
        if host == "host":
            run.ended(f"not-mapped 0x{place:x} 0x{place:x}")
            run.end(f"125 hart 0 not-mapped 0x{place:x} 0x{place:x}")
        else:
            run.opens(host, "libtwo.so", two)
            assert run.objects[two].address("two") == place
            run.init(two)
            run.wrote(host, "closed: 2\n")
            run.ended("exit 0")
            run.fini(two, host, GUEST)
            run.end("0 exit")
        texts.append(run.text())
    return "\n".join(texts)


def stacks(top):
    run = Run(top, "stacks", "one stack runs over into another", "turns --lib lib --harts second rr prog", harts=2)
    run.start("prog", GUEST, names=[("second", "prog")])
    run.init(GUEST, "prog")
    run.ended("exit 0", h=1)
    run.wrote("prog", "the first hart's numbers are overwritten\n")
    run.ended("exit 1")
    run.fini("prog", GUEST)
    run.end("1 exit")
    return run.text()


def tenants(top):
    host, ledger = "host", "lib/libledger.so"
    run = Run(top, "tenants", "two tenants and the host, each with its own ledger", "turns --lib lib rr host")
    run.start(host, ledger, GUEST)
    run.init(ledger, GUEST, host)
    run.grant(host, "pay", ledger)
    handles = []
    for space, customers in ((1, 3), (2, 4)):
        run.call(host, "dlmopen")
        base = dict(run.objects)
        run.opens(host, "libtenant.so", "lib/libtenant.so", ledger, ns="new", into=space)
        run.init(ledger, "lib/libtenant.so")
        run.call(host, "dlsym")
        serial = run.serials - 1
        run.sym(serial, "serve", "lib/libtenant.so")
        run.wrote(host, f"tenant {space}: the balance is {10 * customers}\n")
        handles.append([run.objects["lib/libtenant.so"], run.objects[ledger]])
        run.objects[ledger] = base[ledger]
    run.wrote(host, "host: the balance is 5\n")
    small = "lib/libsmall.so"
    for space in range(3, 16):
        run.opens(host, "libsmall.so", small, ns="new", into=space)
        run.init(small)
        handles.append([run.objects[small]])
    run.opens(host, "libsmall.so", ns="new", refused="namespaces-full")
    run.told(host, "namespaces-full")
    run.wrote(host, "15 namespaces beside the base, then namespaces-full\n")
    for objects in reversed(handles):
        for loaded in objects:
            run.objects[loaded.serial] = loaded
        run.closes(host, objects[0].serial, *(loaded.serial for loaded in objects))
    run.ended("exit 15")
    run.fini(host, GUEST, ledger)
    run.end("15 exit")
    return run.text()


def corners(top):
    prog, opened, shut = "prog", "lib/libopen.so", "lib/libshut.so"
    run = Run(top, "corners", "what the dl functions answer", "turns --lib lib rr prog")

    def says(what, answer="found"):
        run.wrote(prog, f"{what}: {answer}\n")

    def fails(what, why):
        run.told(prog, why)
        says(what, why)

    run.start(prog, GUEST)
    run.init(GUEST, prog)
    run.call(prog, "dlopen")
    run.opens(prog, "-", old=prog)
    says("dlopen of the null name")
    for name, what, flags in (("libopen.so", "flags 0", 0), ("libopen.so", "LAZY and NOW", 3)):
        run.opens(prog, name, flags=flags, refused=f"bad-flags 0x{flags:x}")
        fails(f"dlopen with {what}", f"bad-flags 0x{flags:x}")
    run.opens(prog, "libnone.so", refused="missing-library libnone.so")
    fails("dlopen of what isn't there", "missing-library libnone.so")
    run.opens(prog, "libshut.so", flags=6, absent=True)
    run.told(prog, "-")
    says("NOLOAD of what isn't loaded", "0")

    run.opens(prog, "libopen.so", opened, flags=0x102)
    run.init(opened)
    says("dlopen with GLOBAL")
    run.call(prog, "dlsym")
    run.sym(0, "opened", opened)
    says("its symbol by RTLD_DEFAULT")
    run.sym(1, "opened", refused="missing-symbol prog opened -")
    fails("its symbol by the program's handle", "missing-symbol prog opened -")

    run.opens(prog, "libshut.so", shut)
    run.init(shut)
    says("dlopen with LOCAL")
    run.sym(0, "shut", refused="missing-symbol - shut -")
    fails("its symbol by RTLD_DEFAULT", "missing-symbol - shut -")
    run.sym(4, "shut", shut)
    says("its symbol by its handle")
    run.opens(prog, "libshut.so", flags=0x106, old=shut)
    says("GLOBAL and NOLOAD then")
    run.sym(0, "shut", shut)
    says("its symbol by RTLD_DEFAULT")
    run.opens(prog, "libshut.so", old=shut)
    says("a second dlopen answers the same handle", "yes")
    run.sym(4, "nothing", refused="missing-symbol lib/libshut.so nothing -")
    fails("a symbol that nobody has", "missing-symbol lib/libshut.so nothing -")
    run.told(prog, "-")
    says("dlerror a second time", "0")

    run.closes(prog, 3, opened)
    says("dlclose of the global one", "0")
    run.sym(0, "opened", refused="missing-symbol - opened -")
    fails("its symbol by RTLD_DEFAULT", "missing-symbol - opened -")
    run.closes(prog, 1)
    says("dlclose of the null name's handle", "0")
    run.closes(prog, 1, refused="bad-handle 0x1")
    says("dlclose of it again", "refused")
    run.ended("exit 0")
    run.fini(shut, prog, GUEST)
    run.end("0 exit")
    return run.text()


def hostile(top):
    names = (
        "writes_code writes_constant writes_pointer writes_slot runs_data reads_nothing enters_nothing reads_askew"
        " no_instruction breaks calls_nowhere never_ends wrong_module wrong_object wrong_slot"
    ).split()
    host, library = "host", "lib/libhostile.so"
    words = f"turns --lib lib --fuel 20000 --harts {','.join(names)} rr host"
    run = Run(top, "hostile", "fifteen wrong things, each of which ends its hart", words, harts=16)
    run.start(host, library, GUEST, names=[(name, library) for name in names])
    run.init(library, GUEST, host)
    base = run.objects[library].base
    at = {name: run.objects[library].address(name) for name in names}
    # Places without a symbol, offsets of instructions and numbers of turns are read off the code that clang 14 made
    # (objdump -d): after a build with another compiler look again.
    data, table, pointer, constant = base + 0x38B8, base + 0x38C0, base + 0x27A0, base + 0x640
    code = run.objects[library].address("harmless")
    # By the turn at which it comes, then by hart.
    run.ended(f"not-mapped 0x{at['reads_nothing']:x} 0x0", h=6)  # 1
    run.ended(f"bad-instruction 0x{at['no_instruction']:x} 0xffffffff", h=9)
    run.ended(f"break 0x{at['breaks']:x}", h=10)
    run.ended(f"not-mapped 0x{at['writes_constant'] + 8:x} 0x{constant:x}", h=2)  # 3
    run.ended(f"not-mapped 0x{at['writes_pointer'] + 8:x} 0x{pointer:x}", h=3)
    run.ended(f"not-mapped 0x{data:x} 0x{data:x}", h=5)
    run.ended(f"misaligned 0x{at['reads_askew'] + 8:x} 0x{data + 2:x}", h=8)
    first = f"not-mapped 0x{at['writes_code'] + 12:x} 0x{code:x}"
    run.ended(first, h=1)  # 4
    run.ended("not-mapped 0x0 0x0", h=7)  # 5
    run.ended("unloaded 0x3e8", h=14)
    run.ended("no-slot 1 0x1f40", h=15)  # 6
    run.put("unresolved h=11 o=2 slot=0 missing")  # 14: 2 of its own, 3 of the entry, 8 of the head of the table
    run.ended("unresolved 2 0", h=11)
    run.grant(host, "harmless", library, is_settled=False)  # 16, both
    run.grant(library, "__tls_get_addr", "linker", h=13, is_settled=False)
    run.open = {0: "bound g=1", 13: "bound g=2"}
    run.ended("bad-module 77", h=13)  # 21: an exchange and the turn that ends it, two doublewords, the answer
    run.ended(f"slot-store 0x{at['writes_slot'] + 40:x} 0x{table + 16:x}", h=4)  # 32: the eighth entry is the table's
    run.wrote(host, "execve: -38\n")
    run.wrote(host, "write to another file: -9\n")
    run.wrote(host, "write of what can't be read: -14\n")
    run.closes(host, 1, refused="bad-handle 0x1")
    run.wrote(host, "dlclose of the program: -1\n")
    run.ended("exit 0")
    run.ended("fuel", h=12)
    run.end(f"125 hart 1 {first}")
    return run.text()


def bound(top, sample, title, program, preload=(), now=False):
    """What `ldso bind` prints of a sample, by bench/linker.py."""
    folder = Path(top) / "samples" / sample
    text = linker.bind(folder, program.encode(), [b"lib"], [name.encode() for name in preload], now)
    words = ["bind --lib lib"] + [f"--preload {name}" for name in preload] + ["--now"] * now + [program]
    run = Run(top, sample, title, " ".join(words))
    run.lines = text.splitlines()
    return run.text([program] + sorted(f"lib/{file.name}" for file in (folder / "lib").iterdir()))


def binds(top):
    return "\n".join(
        [
            bound(top, "lazy", "what each slot gets", "prog"),
            bound(top, "lazy", "what is missing where slots are bound at load", "prog", now=True),
            bound(top, "versions", "what each slot of the first gets", "first"),
            bound(top, "versions", "what each slot of the second gets", "second"),
            bound(top, "preload", "who gets the calls", "prog", preload=["libwatch.so"]),
        ]
    )


def dumped(top):
    """What `ldso dump` prints of a sample, by bench/oracle.py."""
    run = Run(top, "plugins", "what a plug-in holds", "dump lib/torn.so")
    data = (Path(top) / "samples/plugins/lib/torn.so").read_bytes()
    run.lines = oracle.dump(data, b"lib/torn.so").splitlines()
    return run.text(["lib/torn.so"])


def main(top):
    print("# The samples, whose sources are in samples/: objects that clang and lld made. What each writes was worked out")
    print("# by bench/sample_texts.py.")
    for sample in (hello, plugins, versions, lazy, thread_local, order, preload, tenants, race, stale, corners, hostile, stacks,
                   binds, dumped):
        print()
        print(sample(top), end="")


if __name__ == "__main__":
    main(sys.argv[1])
