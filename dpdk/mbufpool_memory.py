# mbufpool_memory.py - what a core file, or a process, says of DPDK's mempools: see
# mbufpool_core.py.
#
# No symbol of DPDK is needed: a module's data have the name of the list of mempools, and a reference to
# its head beside it. Where fields lie is read from
# mbufpool_layout.txt, which mbufpool_layout.c prints.
#
# What is read of a core is what the core has. gdb would read as zeros what was left out of it, and, of a
# mapped file, what that file has today.
#
# A core may be damaged, so each loop has a bound: no list is followed further than it says it is long,
# nor round, and each size is held against a limit before so much is read.
import bisect
import collections
import mmap
import os
import re
import struct
from array import array

import gdb

MAX_MEMPOOLS = 65536
MAX_SEARCH = 1 << 20  # bytes in which a lost header is looked for
PIECE = 1 << 24  # bytes that are searched at once
MAX_NOTES = 20
INT_FORMATS = {1: "B", 2: "H", 4: "I", 8: "Q"}


class Fault(Exception):
    """What can't be done, in one line."""


class Notes:
    """What is odd about a core, each thing in a line, and only so many of them."""

    def __init__(self):
        self.lines = []
        self.left_out = 0

    def add(self, line):
        if line in self.lines:
            return
        if len(self.lines) < MAX_NOTES:
            self.lines.append(line)
        else:
            self.left_out += 1

    def take(self):
        lines = ["note: " + line for line in self.lines]
        if self.left_out > 0:
            lines.append("note: and %d more like these" % self.left_out)
        self.__init__()
        return lines


class Layout:
    """Where DPDK's structures have their fields."""

    def __init__(self, path):
        self.sizes, self.fields, self.values, self.version = {}, {}, {}, "an unknown DPDK"
        try:
            with open(path) as lines:
                for line in lines:
                    self.note(line.split())
        except (OSError, ValueError, IndexError) as error:
            raise Fault("%s can't be read (%s): `make mbufpool_layout.txt` makes it" % (path, error))
        self.mbuf_fields = sorted(
            (at, size, name.split(".", 1)[1])
            for name, (at, size) in self.fields.items() if name.startswith("rte_mbuf."))
        if not self.mbuf_fields:
            raise Fault("%s has no rte_mbuf: `make mbufpool_layout.txt` makes it anew" % path)
        self.Mbuf = collections.namedtuple("Mbuf", [name for _, _, name in self.mbuf_fields])
        self.unpack_mbuf = struct.Struct(self.mbuf_format()).unpack

    def note(self, words):
        if words[0] == "version":
            self.version = " ".join(words[1:])
        elif words[0] == "size":
            self.sizes[words[1]] = int(words[2])
        elif words[0] == "value":
            self.values[words[1]] = int(words[2])
        elif words[0] == "field":
            self.fields[words[1]] = (int(words[2]), int(words[3]))
        else:
            raise ValueError("a line '%s'" % " ".join(words))

    def mbuf_format(self):
        form, at = "<", 0
        for field_at, size, _ in self.mbuf_fields:
            form += "%dx%s" % (field_at - at, INT_FORMATS[size])
            at = field_at + size
        return form + "%dx" % (self.sizes["rte_mbuf"] - at)

    def at(self, field):
        return self.fields[field][0]


class Memory:
    """What was in memory: subclasses say how it is read."""

    is_short = False  # it is a core that has been cut off
    goes_on = False  # what is read may be another the next time

    def hold(self):
        """Lets a process stand that goes on by itself."""

    def let_go(self):
        """Lets it go on."""

    def __init__(self, layout):
        self.layout = layout

    def number(self, at, size=8):
        return int.from_bytes(self.read(at, size), "little")

    def get(self, at, field):
        """A field of the structure that begins at `at`."""
        offset, size = self.layout.fields[field]
        return self.number(at + offset, size)

    def text(self, at, field):
        """A field of characters; what isn't printed ASCII stands as \\x.."""
        offset, size = self.layout.fields[field]
        chars = self.read(at + offset, size).split(b"\0", 1)[0]
        return "".join(chr(c) if 32 <= c < 127 else "\\x%02x" % c for c in chars)

    def pointers(self, at, n):
        return array("Q", self.read(at, 8 * n)) if n > 0 else array("Q")

    def mbuf(self, at):
        layout = self.layout
        return layout.Mbuf._make(layout.unpack_mbuf(self.read(at, layout.sizes["rte_mbuf"])))


class Core(Memory):
    """A core file."""

    def __init__(self, layout, path):
        super().__init__(layout)
        self.path = path
        try:
            with open(path, "rb") as file:
                self.bytes = mmap.mmap(file.fileno(), 0, access=mmap.ACCESS_READ)
            self.note_segments()
        except (OSError, ValueError, struct.error) as error:
            raise Fault("%s isn't a core that can be read: %s" % (path, error))

    def note_segments(self):
        if self.bytes[:6] != b"\x7fELF\x02\x01" or self.bytes[16:18] != b"\x04\0":
            raise ValueError("it is no ELF core of 64 bits")
        headers, sections = struct.unpack_from("<QQ", self.bytes, 32)
        entry, count = struct.unpack_from("<HH", self.bytes, 54)
        if count == 0xFFFF:  # then the first section says how many
            count = struct.unpack_from("<I", self.bytes, sections + 44)[0]
        if entry < 56 or headers + entry * count > len(self.bytes):
            raise ValueError("it ends within its headers")
        self.segments = []  # begin, end of what is in the file, place in the file, end, flags
        for k in range(count):
            kind, flags, place, begin, _, there, size = struct.unpack_from(
                "<IIQQQQQ", self.bytes, headers + k * entry)
            if kind == 1:
                has = max(0, min(there, len(self.bytes) - place))
                self.is_short |= has < there
                self.segments.append((begin, begin + has, place, begin + max(size, there), flags))
        self.segments.sort()
        self.begins = [segment[0] for segment in self.segments]

    def read(self, at, n):
        parts = []
        while n > 0:
            k = bisect.bisect_right(self.begins, at) - 1
            begin, end, place = self.segments[k][:3] if k >= 0 else (0, 0, 0)
            if at >= end:
                raise Fault(self.why_not(at, n, k))
            size = min(n, end - at)
            parts.append(self.bytes[place + at - begin:place + at - begin + size])
            at, n = at + size, n - size
        return parts[0] if len(parts) == 1 else b"".join(parts)

    def why_not(self, at, n, k):
        why = "it was no memory of the program"
        if k >= 0 and at < self.segments[k][3]:
            why = "the core has been cut off" if self.is_short else (
                "it was left out of the core: coredump_filter of the program said so")
        return "%d bytes at 0x%x can't be read: %s" % (n, at, why)

    def find(self, pattern):
        """Where this stands in what could be written to, in small segments first."""
        for begin, end, place, _, flags in sorted(self.segments, key=lambda s: s[1] - s[0]):
            at = self.bytes.find(pattern, place, place + end - begin) if flags & 2 else -1
            while at >= 0:
                yield begin + at - place
                at = self.bytes.find(pattern, at + 1, place + end - begin)


class Live(Memory):
    """A process that gdb holds."""

    def __init__(self, layout, pid):
        super().__init__(layout)
        self.pid = pid

    def read(self, at, n):
        try:
            return bytes(gdb.selected_inferior().read_memory(at, n))
        except (gdb.error, OverflowError):
            raise Fault("%d bytes at 0x%x can't be read" % (n, at))

    def find(self, pattern):
        """Where this stands in what could be written to, in small mappings first."""
        try:
            with open("/proc/%d/maps" % self.pid) as lines:
                maps = re.findall(r"^([0-9a-f]+)-([0-9a-f]+) .w", lines.read(), re.M)
        except OSError as error:
            raise Fault("the maps of the process can't be read: %s" % error)
        sizes = sorted((int(end, 16) - int(begin, 16), int(begin, 16)) for begin, end in maps)
        for size, begin in sizes:
            for at in range(begin, begin + size, PIECE):
                yield from self.find_in(at, min(PIECE + len(pattern) - 1, begin + size - at), pattern)

    def find_in(self, begin, size, pattern):
        try:
            piece = self.read(begin, size)
        except Fault:
            return
        at = piece.find(pattern)
        while at >= 0:
            yield begin + at
            at = piece.find(pattern, at + 1)


class Running(Live):
    """A process that goes on, and that gdb holds for a while."""

    goes_on = True

    def __init__(self, layout, pid):
        super().__init__(layout, pid)
        try:
            self.file = open("/proc/%d/mem" % pid, "rb", buffering=0)
            gdb.execute("file /proc/%d/exe" % pid, False, True)  # (or it is read while the process stands)
        except OSError as error:
            raise Fault("the process %d can't be read: %s" % (pid, error.strerror))
        except gdb.error:
            pass

    def read(self, at, n):
        try:
            found = os.pread(self.file.fileno(), n, at)
        except (OSError, OverflowError):
            found = b""
        if len(found) < n:
            raise Fault("%d bytes at 0x%x can't be read" % (n, at))
        return found

    def hold(self):
        try:
            gdb.execute("attach %d" % self.pid, False, True)
        except gdb.error as error:
            raise Fault("gdb can't hold the process: %s" % "; ".join(str(error).splitlines()))

    def let_go(self):
        gdb.execute("detach", False, True)


# ---- the mempools ----

def list_heads(memory):
    """Where the head of EAL's list of mempools may be: a library that has such a list keeps a reference
    to the head, in a chain of all libraries' lists, with the list's name."""
    layout = memory.layout
    name_at, size = layout.fields["rte_tailq_elem.name"]
    for at in memory.find(b"RTE_MEMPOOL".ljust(size, b"\0")):
        try:
            before = memory.get(at - name_at, "rte_tailq_elem.next.tqe_prev")
            head = memory.get(at - name_at, "rte_tailq_elem.head")
            if head != 0 and memory.number(before) == at - name_at:
                yield head
        except Fault:
            continue


def first_entry(memory, head):
    """The first entry of a list. The head is in a file that processes share, which a core lacks where
    its filter is the usual one; then it is the entry that refers to the head."""
    first = head + memory.layout.at("rte_tailq_head.tailq_head.tqh_first")
    try:
        return memory.number(first)
    except Fault:
        pass
    for at in memory.find(struct.pack("<Q", first)):
        entry = at - memory.layout.at("rte_tailq_entry.next.tqe_prev")
        if is_entry(memory, entry):
            return entry
    return 0


def is_entry(memory, entry):
    """Whether it is one of the list: the next entry refers to it, or it is the last, and has a mempool."""
    try:
        following = memory.get(entry, "rte_tailq_entry.next.tqe_next")
        if following == 0:
            return is_mempool(memory, memory.get(entry, "rte_tailq_entry.data"))
        back = memory.get(following, "rte_tailq_entry.next.tqe_prev")
        return back == entry + memory.layout.at("rte_tailq_entry.next.tqe_next")
    except Fault:
        return False


def is_mempool(memory, at):
    """Whether there is what a mempool says of itself."""
    layout = memory.layout
    try:
        if at % 8 != 0 or not re.match(r"[^\\]+$", memory.text(at, "rte_mempool.name")):
            return False
        cache = memory.get(at, "rte_mempool.local_cache")
        return (memory.get(at, "rte_mempool.ops_index") < layout.values["RTE_MEMPOOL_MAX_OPS_IDX"]
                and memory.get(at, "rte_mempool.header_size") >= layout.sizes["rte_mempool_objhdr"]
                and memory.get(at, "rte_mempool.elt_size") > 0
                and cache in (0, at + layout.sizes["rte_mempool"]))
    except Fault:
        return False


def find_mempools(memory, notes):
    """The addresses of all mempools."""
    pools, seen, head = [], set(), None
    for head in list_heads(memory):
        entry = first_entry(memory, head)
        while entry != 0 and entry not in seen and len(seen) < MAX_MEMPOOLS:
            seen.add(entry)
            try:
                at = memory.get(entry, "rte_tailq_entry.data")
                entry = memory.get(entry, "rte_tailq_entry.next.tqe_next")
            except Fault as fault:
                notes.add("the list of mempools breaks off: %s" % fault)
                break
            if is_mempool(memory, at):
                pools.append(at)
            else:
                notes.add("no mempool is at 0x%x, which the list of them names: it is damaged, or this "
                          "isn't %s" % (at, memory.layout.version))
        if pools:
            return pools
    if memory.is_short:
        raise Fault("no mempools were found: the core has been cut off")
    if head is not None:
        raise Fault("no mempools were found, only where their list begins: there are none, or DPDK's memory "
                    "isn't in the core (huge pages are where the program's coredump_filter has 0x40)")
    raise Fault("no mempools were found: the program had no list of them yet, or isn't one with %s"
                % memory.layout.version)


# ---- a mempool ----

class Pool:
    """A mempool: its objects by number, and what is in its caches."""

    def __init__(self, memory, at, notes):
        self.memory, self.at, self.notes = memory, at, notes
        for field in ("pool_data", "cache_size", "elt_size", "header_size", "trailer_size",
                      "private_data_size", "ops_index", "local_cache", "populated_size"):
            setattr(self, field, memory.get(at, "rte_mempool." + field))
        self.name = memory.text(at, "rte_mempool.name")

    def note(self, line):
        self.notes.add("mempool %s: %s" % (self.name, line))

    def private(self, field):
        """A field of what a pool of mbufs says of itself."""
        layout = self.memory.layout
        at = self.at + layout.sizes["rte_mempool"]
        if self.cache_size != 0:
            at += layout.sizes["rte_mempool_cache"] * layout.values["RTE_MAX_LCORE"]
        return self.memory.get(at, "rte_pktmbuf_pool_private." + field)

    def has_mbufs(self):
        sizes = self.memory.layout.sizes
        return (self.private_data_size >= sizes["rte_pktmbuf_pool_private"] and
                self.elt_size >= sizes["rte_mbuf"] + self.private("mbuf_priv_size"))

    def chunks(self):
        """Where its memory is: pairs of a begin and an end, in the order in which it came."""
        memory, found, seen = self.memory, [], set()
        chunk = memory.get(self.at, "rte_mempool.mem_list.stqh_first")
        left = memory.get(self.at, "rte_mempool.nb_mem_chunks")
        while chunk != 0 and chunk not in seen and len(seen) < left:
            seen.add(chunk)
            if memory.get(chunk, "rte_mempool_memhdr.mp") != self.at:
                self.note("the list of its memory is damaged at 0x%x" % chunk)
                break
            begin = memory.get(chunk, "rte_mempool_memhdr.addr")
            found.append((begin, begin + memory.get(chunk, "rte_mempool_memhdr.len")))
            chunk = memory.get(chunk, "rte_mempool_memhdr.next.stqe_next")
        return found

    def objects(self):
        """The addresses of its objects, by number."""
        return Objects(self).found

    def caches(self):
        """What is in the caches that aren't empty: pairs of an lcore and its objects."""
        layout, found = self.memory.layout, []
        objs_at, objs_size = layout.fields["rte_mempool_cache.objs"]
        if self.cache_size == 0:
            return found
        for lcore in range(layout.values["RTE_MAX_LCORE"]):
            cache = self.local_cache + lcore * layout.sizes["rte_mempool_cache"]
            n = self.memory.get(cache, "rte_mempool_cache.len")
            if n > objs_size // 8:
                self.note("the cache of lcore %d says that it has %d objects: %d are read"
                          % (lcore, n, objs_size // 8))
            n = min(n, objs_size // 8)
            if n > 0:
                found.append((lcore, self.memory.pointers(cache + objs_at, n)))
        return found


class Objects:
    """The objects of a mempool, by their list. A header lies in front of each, and a buffer that is written
    beyond its end reaches that of the next object: where a link is damaged the list goes on with the next
    header that there is in memory."""

    def __init__(self, pool):
        self.pool, self.memory = pool, pool.memory
        self.ordered = pool.chunks()
        self.chunks = sorted(self.ordered)
        self.stride = pool.header_size + pool.elt_size + pool.trailer_size
        self.step = 64 if pool.header_size % 64 == 0 and self.stride % 64 == 0 else 8
        self.header_size = self.memory.layout.sizes["rte_mempool_objhdr"]
        self.found, self.headers = array("Q"), set()
        header = self.memory.get(pool.at, "rte_mempool.elt_list.stqh_first")
        behind = self.ordered[0][0] if self.ordered else 0
        while len(self.found) < pool.populated_size:
            header = self.add(header, behind)
            behind = header + self.stride
            header = self.memory.get(header, "rte_mempool_objhdr.next.stqe_next")

    def add(self, header, behind):
        """Adds the object of a header, or of the next one that there is, and returns that."""
        if not self.is_header(header, behind):
            self.pool.note("the link to object %d is damaged, 0x%x" % (len(self.found), header))
            header = self.search(behind)
        if not self.names_pool(header):
            self.pool.note("the header of object %d, at 0x%x, was overwritten: by what lies in front of it?"
                           % (len(self.found), header + self.header_size))
        self.headers.add(header)
        self.found.append(header + self.header_size)
        return header

    def end_of_chunk(self, at):
        k = bisect.bisect_right(self.chunks, (at, 1 << 64)) - 1
        return self.chunks[k][1] if k >= 0 else 0

    def names_pool(self, header):
        return self.memory.get(header, "rte_mempool_objhdr.mp") == self.pool.at

    def is_header(self, header, behind):
        """Whether an object's header may be here: it names the mempool, or stands where the next one is to
        be, behind what is left of a page at most."""
        if header in self.headers or header % 8 != 0 or (
                header + self.header_size + self.pool.elt_size > self.end_of_chunk(header)):
            return False
        return behind <= header < behind + self.stride or self.names_pool(header)

    def search(self, behind):
        """The next header that names the mempool, where the next one is to be."""
        first = self.ordered[0][0] + self.pool.header_size - self.header_size if self.ordered else 0
        begin = behind + (first - behind) % self.step
        end = min(behind + min(self.stride, MAX_SEARCH), self.end_of_chunk(behind))
        for header in range(begin, end, self.step):
            if self.is_header(header, behind) and self.names_pool(header):
                return header
        raise Fault("mempool %s: %d of its %d objects were found"
                    % (self.pool.name, len(self.found), self.pool.populated_size))
