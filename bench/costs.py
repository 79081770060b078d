"""What hostile files and guests cost, and what files may: a row for each scenario, with seconds of processors, MiB, and
what is wanted:

    nice python3 bench/costs.py [NUMBER..]

Each scenario makes its files in a temporary folder, and is killed after a minute. NUMBER chooses topics: 1 openings
over and over, 2 a hart that waits, 3 hash tables with one bucket, 4 many libraries, 5 files that aren't regular ones, 6 how
long a run takes to start, 7 a turn, 8 the values of the linker's own functions, 9 glibc's start (bench/bind.sh). The program
is that of LDSO, or crates/ldso/out/ldso."""

import os
import resource
import statistics
import struct
import subprocess
import sys
import tempfile
import time
from pathlib import Path

import examples
import one_name
from objects import gnu_hash

SECONDS, MOST_MEMORY = 60, 6 << 30
EXIT = "li a0, 0\nli a7, 93\necall\n"
LDSO = examples.program().resolve()


class Measured:
    """A command that was run: its status, None where it took too long; its text, seconds of processors, and MiB."""

    def __init__(self, words, folder, seconds=SECONDS):
        with tempfile.TemporaryFile() as out:
            begun = time.monotonic()
            process = subprocess.Popen([str(LDSO), *words], cwd=folder, stdout=out, stderr=out, preexec_fn=bounded)
            self.status = None
            while time.monotonic() - begun < seconds:
                done, code, used = os.wait4(process.pid, os.WNOHANG)
                if done:
                    self.status = os.waitstatus_to_exitcode(code)
                    break
                time.sleep(0.002)
            else:
                process.kill()
                _, _, used = os.wait4(process.pid, 0)
            process.returncode = 0
            self.seconds, self.mib = used.ru_utime + used.ru_stime, used.ru_maxrss / 1024
            self.wall = time.monotonic() - begun
            out.seek(0)
            self.text = out.read().decode(errors="replace")

    def end(self):
        return "over the time limit" if self.status is None else (self.text.splitlines() or ["no text"])[-1]


def bounded():
    resource.setrlimit(resource.RLIMIT_AS, (MOST_MEMORY, MOST_MEMORY))


def row(number, what, done, wanted):
    print(f"| {number} | {what} | {done.seconds:.2f} s | {done.mib:.0f} MiB | {done.end()} | {wanted} |", flush=True)


def said(number, what, value, wanted):
    print(f"| {number} | {what} | {value} | | | {wanted} |", flush=True)


def write(folder, files):
    """Writes objects: bytes, or the source of one."""
    assemble = examples.Assembler(str(LDSO))
    for path, content in files.items():
        place = Path(folder, path)
        place.parent.mkdir(parents=True, exist_ok=True)
        place.write_bytes(content if isinstance(content, bytes) else assemble(content))


def scenario(files, words, seconds=SECONDS):
    with tempfile.TemporaryDirectory() as folder:
        write(folder, files)
        return Measured(words.split(), folder, seconds)


# ---- the topics


def again_and_again(count, size):
    """A guest opens and closes a library, over and over."""
    loop = f"_start: li s1, {count}\nmore: la a0, n\nli a1, 1\ncall dlopen\ncall dlclose\naddi s1, s1, -1\nbnez s1, more\n"
    prog = ".kind prog\n" + loop + EXIT + '.data\nn: .asciz "libbig.so"\n'
    big = f".soname libbig.so\n.global d\n.data\nd: .zero {size}\n"
    return scenario({"prog": prog, "lib/libbig.so": big}, "turns --lib lib --fuel 100000000 rr prog")


def spelled_anew(count, size):
    """A guest opens and closes a library by path, spelled with one `./` more each time."""
    loop = "more: addi s2, s2, -2\nmv a0, s2\nli a1, 1\ncall dlopen\ncall dlclose\naddi s1, s1, -1\nbnez s1, more\n"
    begin = f"_start: la s2, n\nli s1, {count}\nadd s2, s2, s1\nadd s2, s2, s1\n"
    prog = ".kind prog\n" + begin + loop + EXIT + '.data\nn: .asciz "' + "./" * count + 'lib/libbig.so"\n'
    big = f".soname libbig.so\n.global d\n.data\nd: .zero {size}\n"
    return scenario({"prog": prog, "lib/libbig.so": big}, "turns --lib lib --fuel 100000000 rr prog")


def openings():
    for mib in (1, 4):
        one = again_and_again(1, mib << 20)
        row(1, f"a library of {mib} MiB is opened and closed once", one, "")
        done = again_and_again(1000, mib << 20)
        row(1, "a thousand times", done, f"{one.mib + 2:.0f} MiB: a library's bytes are kept once")
    one = spelled_anew(1, 4 << 20)
    row(1, "one of 4 MiB is opened by its path and closed", one, "")
    row(1, "a hundred times, each path spelled anew", spelled_anew(100, 4 << 20), f"{one.mib + 2:.0f} MiB")


def waiting(turns):
    """Hart 1 waits for so many turns while a library is initialised that needs a great one."""
    opens = "_start: la a0, n\nli a1, 1\ncall dlopen\n" + EXIT
    prog = ".kind prog\n.global h1\n" + opens + "h1: j _start\n" + '.data\nn: .asciz "libz.so"\n'
    slow = f".needed libbig.so\n.init c\nc: li t0, {turns // 2}\nmore: addi t0, t0, -1\nbnez t0, more\nret\n"
    files = {"prog": prog, "lib/libz.so": slow, "lib/libbig.so": ".global d\n.data\nd: .zero 6800000\n"}
    return scenario(files, "turns --lib lib --harts h1 rr prog")


def waits():
    short, long = waiting(2), waiting(202)
    row(2, "a hart waits for 2 turns for a library that needs one of 6.8 MB", short, "")
    row(2, "for 202 turns", long, f"{short.seconds + 0.05:.2f} s: nothing is read while it waits")


def plain(names):
    return [b"f%06d" % k for k in range(names)]


RETURN = bytes.fromhex("67800000")


def called_one_by_one(texts):
    """A program that calls each name of a library whose names are all in one bucket, and each of whose functions returns."""
    # (behind the three program headers stands nothing up to the first table at 288)
    free = 240
    library = bytearray(one_bucket(texts, free)["lib/liba.so"])
    library[free : free + 4] = RETURN
    calls = "".join(f"call {text.decode()}\n" for text in texts)
    return {"prog": ".kind prog\n.needed liba.so\n_start: nop\n" + calls + EXIT, "lib/liba.so": bytes(library)}


def looked_up(names, count):
    """A program that looks the last name of a library up so many times."""
    texts = [text.decode() for text in plain(names)]
    library = "".join(f".global {text}\n{text}:\n" for text in texts) + "ret\n"
    loop = f"_start: li s1, {count}\nmore: li a0, 0\nla a1, n\ncall dlsym\naddi s1, s1, -1\nbnez s1, more\n"
    prog = ".kind prog\n.needed liba.so\n" + loop + EXIT + f'.data\nn: .asciz "{texts[-1]}"\n'
    return {"prog": prog, "lib/liba.so": library}


def fallen(names):
    """Names of one System V hash: that of aQ is that of bA, too."""
    return [b"".join((b"bA", b"aQ")[k >> bit & 1] for bit in range(17)) for k in range(names)]


def one_bucket(texts, value=0x1000):
    """A program with as many slots as its library has names, all in one bucket; the names are of one length, and of one value."""
    names, step = len(texts), len(texts[0]) + 1
    strings = b"\0\0\0liba.so\0" + b"\0".join(texts) + b"\0"
    hashes = [gnu_hash(text) & ~1 for text in texts]
    hashes[-1] |= 1
    table = struct.pack("<4IQI", 1, 1, 1, 6, 2**64 - 1, 1) + struct.pack(f"<{names}I", *hashes)
    defined = [struct.pack("<IBBHQQ", 11 + step * k, 0x12, 0, 1, value, 4) for k in range(names)]
    library = one_name.build(3, (0x6FFFFEF5, table), defined, 0, [], 0, strings=strings)
    return {"prog": asking(b"liba.so", texts), "lib/liba.so": library}


def asking(needed, texts):
    """An object with a slot for each of these names."""
    names, step = len(texts), len(texts[0]) + 1
    strings = b"\0\0\0" + needed + b"\0" + b"\0".join(texts) + b"\0"
    undefined = [struct.pack("<IBBHQQ", 4 + len(needed) + step * k, 0x12, 0, 0, 0, 0) for k in range(names)]
    empty = struct.pack("<3I", 1, names + 1, 0) + bytes(4 * (names + 1))
    return one_name.build(3, (4, empty), undefined, 1, list(range(1, names + 1)), 0, strings=strings)


def shared(objects, slots, names):
    """A chain of objects with so many slots each to a library whose names are all in one bucket."""
    texts = plain(names)
    files = {"lib/liba.so": one_bucket(texts)["lib/liba.so"]}
    for k in range(objects):
        needed = b"l%04d.so" % (k + 1) if k + 1 < objects else b"liba.so"
        files[f"lib/l{k:04}.so" if k else "prog"] = asking(needed, (texts * 2)[k * slots % names:][:slots])
    return files


def behind(objects, slots):
    """A program with so many slots to a library that stands behind so many objects, each of which has a slot, too."""
    texts = plain(slots)
    files = {"prog": asking(b"l0001.so", texts), "lib/liba.so": one_bucket(texts)["lib/liba.so"]}
    for k in range(1, objects):
        needed = b"l%04d.so" % (k + 1) if k + 1 < objects else b"liba.so"
        files[f"lib/l{k:04}.so"] = asking(needed, texts[k % slots :][:1])
    return files


def versioned(symbols, slots):
    """A program with a slot for each of these versions of one name, all of whose symbols its library has, in one bucket: those
    of the versions come last."""
    texts = [b"V%05d" % k for k in range(slots)]
    strings = one_name.STRINGS + b"\0".join(texts) + b"\0"
    places = [len(one_name.STRINGS) + 7 * k for k in range(slots)]
    names = [(1, b"liba.so", 3), *((k + 2, text, at) for k, (text, at) in enumerate(zip(texts, places)))]
    record = struct.Struct("<4H5I")
    defined = b"".join(
        record.pack(1, index == 1, index, 1, one_name.sysv_hash(text), 20, 28 if index <= slots else 0, at, 0) for index, text, at in names
    )
    needed = struct.pack("<2H3I", 1, slots, 3, 16, 0) + b"".join(
        struct.pack("<I2H2I", one_name.sysv_hash(text), 0, index, at, 16 if index <= slots else 0) for index, text, at in names[1:]
    )
    exported = [struct.pack("<IBBHQQ", 1, 0x12, 0, 1, 0x1000, 4)] * symbols
    wanted = [struct.pack("<IBBHQQ", 1, 0x12, 0, 0, 0, 0)] * slots
    of_symbols = [slots + 1] * (symbols - slots + 1) + list(range(2, slots + 1))
    definitions = [(0x6FFFFFFC, defined)], [(0x6FFFFFFD, slots + 1)]
    needs = [(0x6FFFFFFE, needed)], [(0x6FFFFFFF, 1)]
    table = (0x6FFFFEF5, one_name.gnu_table(1, symbols))
    empty = (4, struct.pack("<3I", 1, slots + 1, 0) + bytes(4 * (slots + 1)))
    return {
        "lib/liba.so": one_name.build(3, table, exported, 0, [], 0, of_symbols, definitions, strings),
        "prog": one_name.build(3, empty, wanted, 1, list(range(1, slots + 1)), 0, list(range(2, slots + 2)), needs, strings),
    }


def buckets():
    for names in (20000, 80000):
        files = one_bucket(plain(names))
        row(3, f"bind of {names} slots to as many names in one bucket", scenario(files, "bind --lib lib prog"), "5 s")
    texts = fallen(40000)
    done = scenario(one_bucket(texts), "bind --lib lib prog")
    row(3, "bind of 40000 slots to as many names of one System V hash", done, "5 s")
    done = scenario({**one_bucket(texts), "prog": asking(b"liba.so", texts[-10100:])}, "bind --lib lib prog")
    row(3, "bind of 10100 slots to the last of 40000 such names", done, "5 s")
    for slots in 1000, 10000, 30000:
        done = scenario(versioned(100000, slots), "bind --lib lib prog")
        row(3, f"bind of {slots} slots, each of a version of its own, to a name that 100000 symbols have", done, "5 s")
    done = scenario(shared(1000, 60, 60000), "bind --lib lib prog")
    row(3, "bind of 1000 objects with 60 slots each to 60000 names in one bucket", done, "5 s")
    done = scenario(behind(1000, 39000), "bind --lib lib prog")
    row(3, "bind of 39000 slots to a library that stands behind 1000 others", done, "5 s")
    for names in (5000, 20000):
        done = scenario(called_one_by_one(plain(names)), "turns --lib lib --fuel 10000000 rr prog")
        row(3, f"{names} slots to as many names in one bucket are bound one by one", done, "5 s")
    for names in (300, 30000):
        done = scenario(looked_up(names, 10000), "turns --lib lib --fuel 10000000 rr prog")
        row(3, f"dlsym, 10000 times, of one of {names} names", done, "that of 300")


def library_named(number, needed):
    """A library without code, which needs another: bytes of the same source but for the name."""
    return TEMPLATE[0].replace(b"l0000.so", b"l%04d.so" % needed) if needed is not None else TEMPLATE[1]


TEMPLATE = []


def chain(count, is_chained=True):
    if not TEMPLATE:
        assemble = examples.Assembler(str(LDSO))
        TEMPLATE.extend([assemble(".needed l0000.so\n.relro\n.dword 0\n"), assemble(".relro\n.dword 0\n")])
    return {f"lib/l{k:04}.so": library_named(k, k + 1 if is_chained and k + 1 < count else None) for k in range(count)}


def opener(order, flags):
    """A program that opens libraries in an order."""
    calls = "".join(f"la a0, n{k}\nli a1, {flags}\ncall dlopen\n" for k in order)
    return ".kind prog\n_start: nop\n" + calls + EXIT + ".data\n" + "".join(f'n{k}: .asciz "l{k:04}.so"\n' for k in order)


def many():
    needs = ".kind prog\n.needed l0000.so\n_start: ret\n"
    for count, wanted in ((2000, ""), (8000, "1 s, 150 MiB")):
        done = scenario({"prog": needs, **chain(count)}, "bind --lib lib prog")
        row(4, f"bind of a chain of {count} libraries", done, wanted)
    turns, wanted = "turns --lib lib rr prog", {250: "", 1000: "4 times that of 250"}
    for count in wanted:
        files = {"prog": opener(range(count - 1, -1, -1), 1), **chain(count)}
        row(4, f"a chain of {count} is opened from its end on", scenario(files, turns), wanted[count])
    for count in wanted:
        files = {"prog": opener(range(count), 0x101), **chain(count, False)}
        row(4, f"{count} libraries are opened globally, one by one", scenario(files, turns), wanted[count])
    for count in wanted:
        done = scenario({"prog": needs, **chain(count)}, turns)
        row(4, f"a program that needs a chain of {count} starts and ends", done, wanted[count])
    for count in (100, 900):
        row(4, f"a library is opened and closed 200 times beside {count - 1} others", scenario(beside(count), turns), "")


def beside(count):
    """A program that opens libraries, and then another one again and again."""
    opens = opener(range(1, count), 0x101).split(EXIT)[0]
    loop = "li s1, 200\nmore: la a0, n0\nli a1, 1\ncall dlopen\ncall dlclose\naddi s1, s1, -1\nbnez s1, more\n"
    names = "".join(f'n{k}: .asciz "l{k:04}.so"\n' for k in range(count))
    return {"prog": opens + loop + EXIT + ".data\n" + names, **chain(count, False)}


def special():
    with tempfile.TemporaryDirectory() as folder:
        os.mkfifo(f"{folder}/fifo")
        opens = ".kind prog\n_start: la a0, n\nli a1, 1\ncall dlopen\n" + EXIT + '.data\nn: .asciz "./fifo"\n'
        write(folder, {"prog": opens, "needs": ".kind prog\n.needed liba.so\n_start: ret\n"})
        row(5, "dump of a FIFO", Measured(["dump", "fifo"], folder, 5), "end 121 read-fault fifo, at once")
        row(5, "a guest opens a FIFO", Measured(["turns", "rr", "prog"], folder, 5), "end 0 exit, at once")
        done = Measured(["bind", "--lib", "prog", "needs"], folder, 5)
        row(5, "a folder of --lib that is a file", done, "end 121 read-fault prog/liba.so")


def starts():
    prog = ".kind prog\n.needed liba.so\n_start: call f\nli a7, 93\necall\n"
    with tempfile.TemporaryDirectory() as folder:
        write(folder, {"prog": prog, "lib/liba.so": ".global f\nf: li a0, 1\nret\n"})
        for command, wanted in (("bind --lib lib prog", ""), ("turns --lib lib rr prog", "5 ms")):
            walls = [Measured(command.split(), folder).wall for _ in range(41)]
            said(6, f"`{command}`, the middle of 41 runs", f"{1000 * statistics.median(walls):.1f} ms", wanted)


LOOP = """.kind prog
.global h1
_start: la t0, d
more: ld a0, 0(t0)
add a0, a0, sp
sd a0, 0(t0)
addi t1, t1, -1
j more
h1: j _start
.data
.align 8
d: .dword 4
"""


def turns():
    for what, words, count in (("one hart", "rr", 10), ("two harts, one turn each", "--harts h1 rr", 20)):
        few, more = (scenario({"prog": LOOP}, f"turns --fuel {fuel} {words} prog") for fuel in (1000000, 11000000))
        nanoseconds = (more.seconds - few.seconds) * 1000 / count
        said(7, f"a turn, {what}", f"{nanoseconds:.1f} ns", "1.3 of a step, which bench/steps.sh prints")


def own_functions():
    prog = ".kind prog\n_start: la.tls.gd a0, dlopen\nld a0, 8(a0)\nli a7, 93\necall\n"
    row(8, "DTPREL64 of dlopen", scenario({"prog": prog}, "turns rr prog"), f"exit {0x80F010 - 0x800}, so end 16 exit")
    prog = ".kind prog\n_start: la.tls.gd a0, dlopen\nld a0, 0(a0)\nli a7, 93\necall\n"
    row(8, "its module", scenario({"prog": prog}, "turns rr prog"), "end 0 exit")
    prog = ".kind prog\n_start: la.tls.ie a0, dlopen\nli a7, 93\necall\n"
    row(8, "TPREL64 of it", scenario({"prog": prog}, "turns rr prog"), "end 118 needs-static-tls prog")


def glibc():
    script = Path(__file__).with_name("bind.sh")
    done = subprocess.run([script], env={**os.environ, "PROGRAM": str(LDSO)}, capture_output=True, text=True, timeout=600)
    said(9, "4,160 slots of 64 libraries", (done.stdout.splitlines() or [done.stderr.strip()])[-1], "ratio 1")


TOPICS = [openings, waits, buckets, many, special, starts, turns, own_functions, glibc]


def main(words):
    print("| topic | what | takes | memory | end | wanted |\n|---|---|---|---|---|---|", flush=True)
    for number, topic in enumerate(TOPICS, 1):
        if not words or str(number) in words:
            topic()


if __name__ == "__main__":
    main(sys.argv[1:])
