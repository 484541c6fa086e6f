# mbufpool_core.py - commands of gdb which write snapshots of DPDK's mempools of mbufs, from a core file or a
# process, for `mbufpool audit FILE`.
#
#     gdb PROGRAM CORE
#     (gdb) source mbufpool_core.py
#     (gdb) mbufpool list
#     (gdb) mbufpool dump NAME FILE
#     (gdb) mbufpool mbuf NAME N
#     (gdb) mbufpool packets NAME OLD
#
# The program mbufpool-core runs them by one command. Nothing is run in the program that is looked at.
import collections
import json
import os
import re
import signal
import sys

import gdb

HERE = os.path.dirname(os.path.abspath(__file__))
if HERE not in sys.path:
    sys.path.insert(0, HERE)
writes_none, sys.dont_write_bytecode = sys.dont_write_bytecode, True  # no __pycache__ beside this file

from mbufpool_handlers import HANDLERS, handler_names  # noqa: E402 (it stands beside this file)
from mbufpool_memory import (  # noqa: E402
    Core, Fault, Layout, Live, Notes, Pool, Running, find_mempools, is_mempool)
from mbufpool_snapshot import NO_ELEM, Dump, View, fill_all  # noqa: E402

sys.dont_write_bytecode = writes_none

USAGE = """mbufpool list                         the mempools
mbufpool dump NAME FILE [NAME FILE]   a snapshot of one, or of two that have clones of each other's mbufs
mbufpool all DIR                      a snapshot of each
mbufpool mbuf NAME N                  an mbuf, by its number or address
mbufpool packets NAME [OLD ..]        the packets in use, grouped by what they have alike; of these
                                      the ones that are in each of the snapshots OLD too
NAME may be a mempool's address, 0x..; FILE may be -; behind --handler OPS the handler is that"""


class Session:
    """What a command looks at, and where it writes: a snapshot for the file `-`, and its lines."""

    def __init__(self, memory, out, lines, handler):
        self.memory, self.given, self.notes = memory, handler, Notes()
        self.out, self.lines = out, lines
        self.handlers = handler_names(memory)
        self.found, self.bases = None, {}

    def say(self, line):
        self.lines.write(line + "\n")

    def say_notes(self):
        for line in self.notes.take():
            self.say(line)

    def pools(self):
        if self.found is None:
            at = find_mempools(self.memory, self.notes)
            self.found = [Pool(self.memory, pool, self.notes) for pool in at]
        return self.found

    def pool(self, name):
        """The mempool of this name, or at this address."""
        if re.match(r"0x[0-9a-fA-F]+$", name):
            if is_mempool(self.memory, int(name, 16)):
                return Pool(self.memory, int(name, 16), self.notes)
            raise Fault("no mempool is at %s, or this isn't %s" % (name, self.memory.layout.version))
        for pool in self.pools():
            if pool.name == name:
                return pool
        raise Fault("there is no mempool %s" % name)

    def handler(self, pool):
        if self.given is not None:
            return self.given
        return self.handlers[pool.ops_index] if pool.ops_index < len(self.handlers) else ""

    def others(self, views):
        """The memory of the mempools that aren't dumped."""
        found = []
        for pool in self.pools():
            if any(view.pool.at == pool.at for view in views):
                continue
            try:
                found += [(begin, end, pool.at) for begin, end in pool.chunks()]
            except Fault as fault:
                pool.note("its memory isn't known: %s" % fault)
        return found


def list_pools(session):
    for pool in session.pools():
        what = "objects of %d bytes" % pool.elt_size
        if pool.has_mbufs():
            what = "mbufs of %d bytes" % pool.private("mbuf_data_room_size")
        session.say("mempool %s: %d %s, cache %d, handler %s, at 0x%x" % (
            pool.name, pool.populated_size, what, pool.cache_size,
            session.handler(pool) or "unknown (--handler OPS says which)", pool.at))


def write(session, path, text):
    try:
        if path == "-":
            session.out.write(text)
            return
        with open(path, "w") as file:
            file.write(text)
    except OSError as error:
        raise Fault("%s can't be written: %s" % (path, error.strerror))


def dump(session, names, paths):
    """Writes the snapshots of a mempool or two."""
    pools = [session.pool(name) for name in names]
    if len(pools) == 2 and pools[0].at == pools[1].at:
        raise Fault("mempool %s: a pair are two mempools" % pools[0].name)
    for pool in pools:
        if session.handler(pool) not in HANDLERS and pool.has_mbufs():
            tell_what_is_known(session, pool)
    views = look(session, pools)
    pair = Dump(views, session.others(views))
    texts = ["".join(pair.text(view)) for view in views]
    for view, path, text in zip(views, paths, texts):
        write(session, path, text)
        session.say("mempool %s: %s" % (view.pool.name, path))
        for line in view.worker_lines():
            session.say(line)


def look(session, pools):
    """Views of one mempool or two, filled."""
    views = []
    try:
        for pool in pools:
            views.append(View(pool, session.handler(pool)))
        fill_all(views)
    except Fault as fault:
        line = str(fault)
        raise Fault(line if line.startswith("mempool ") else "mempool %s: %s" % (pool.name, line))
    note_clones(session, views)
    return views


def note_clones(session, views):
    """Notes what other mempools have of clones, whose holds a dump without them lacks."""
    for pool in session.pools():
        if any(view.pool.at == pool.at for view in views):
            continue
        if pool.at not in session.bases:
            session.bases[pool.at] = bases_of(pool)
        for view in views:
            n = sum(view.find(base) != NO_ELEM for base in session.bases[pool.at])
            if n > 0:
                view.pool.note("%d mbufs of the mempool %s are clones of it: dump both, NAME FILE NAME FILE"
                               % (n, pool.name))


def bases_of(pool):
    """The mbufs whose buffers the clones among a pool's mbufs use."""
    layout, found = pool.memory.layout, []
    try:
        for at in pool.objects() if pool.has_mbufs() else ():
            mbuf = pool.memory.mbuf(at)
            if mbuf.ol_flags & layout.values["RTE_MBUF_F_INDIRECT"]:
                found.append(mbuf.buf_addr - layout.sizes["rte_mbuf"] - mbuf.priv_size)
    except Fault as fault:
        pool.note("what it has of clones isn't known: %s" % fault)
    return found


def tell_what_is_known(session, pool):
    """What a core says of a pool whose handler isn't supported."""
    view = View(pool, None)
    fill_all([view])
    session.say("mempool %s: of the handler %s a core doesn't say which objects its common part has. "
                "This is known:" % (pool.name, session.handler(pool) or "(unknown)"))
    places = {}
    for lcore, objects in view.caches:
        session.say("cache of lcore %d: %s" % (lcore, " ".join(str(view.find(at)) for at in objects)))
        for k, at in enumerate(objects):
            places.setdefault(view.find(at), []).append("at %d in the cache of lcore %d" % (k, lcore))
    for elem in sorted(places):
        if len(places[elem]) > 1 or elem == NO_ELEM:
            session.say("element %d: %s" % (elem, ", ".join(places[elem])))
    used = [e for e in range(view.size) if e not in places and looks_used(session, view.mbuf(e))]
    session.say("in use, as their headers say (a count that isn't 1, a chain, a clone): %s"
                % (" ".join(map(str, used)) or "none"))


def looks_used(session, mbuf):
    """A free mbuf has a count of 1, no next and its own buffer: so has one that was just got."""
    is_clone = mbuf.ol_flags & session.memory.layout.values["RTE_MBUF_F_INDIRECT"]
    return mbuf.refcnt != 1 or mbuf.next != 0 or mbuf.nb_segs != 1 or is_clone != 0


def dump_all(session, folder):
    """Writes a snapshot of each mempool of mbufs. Says whether all were written."""
    is_well, taken = True, set()
    for pool in session.pools():
        if not pool.has_mbufs():
            session.say("mempool %s: left out, it isn't one of mbufs" % pool.name)
            continue
        name = re.sub(r"[^A-Za-z0-9_.-]", "_", pool.name).lstrip(".") or "_"
        while name in taken:
            name += "_"
        taken.add(name)
        try:
            dump(session, ["0x%x" % pool.at], [os.path.join(folder, name + ".json")])
        except Fault as fault:
            session.say(str(fault))
            is_well = False
    return is_well


def places_of(view, elem):
    """Where an element is."""
    for k, at in enumerate(view.common):
        if at == view.mbufs[elem]:
            yield "at %d in the common part" % k
    for lcore, objects in view.caches:
        for k, at in enumerate(objects):
            if at == view.mbufs[elem]:
                yield "at %d in the cache of lcore %d" % (k, lcore)


def find_elem(view, what):
    """An element by its number, or by an address in its mbuf."""
    at = int(what, 0)
    if not what.startswith("0x"):
        return at if at < view.size else NO_ELEM
    for elem, begin in enumerate(view.mbufs):
        if begin <= at < begin + view.pool.elt_size:
            return elem
    return NO_ELEM


def show_mbuf(session, name, what):
    pool = session.pool(name)
    handler = session.handler(pool)
    view = View(pool, handler if handler in HANDLERS else None)
    fill_all([view])
    if not re.match(r"(0x[0-9a-fA-F]+|[0-9]+)$", what):
        raise Fault("an mbuf is a number or an address, and not %s" % what)
    elem = find_elem(view, what)
    if elem == NO_ELEM:
        raise Fault("mempool %s has no mbuf %s" % (pool.name, what))
    mbuf = view.mbuf(elem)
    session.say("mbuf %d at 0x%x: refcnt %d, nb_segs %d, next 0x%x, port %d, ol_flags 0x%x, pool 0x%x" % (
        elem, view.mbufs[elem], mbuf.refcnt, mbuf.nb_segs, mbuf.next, mbuf.port, mbuf.ol_flags,
        mbuf.pool))
    session.say("pkt_len %d, data_len %d, data_off %d, buf_len %d, buf_addr 0x%x" % (
        mbuf.pkt_len, mbuf.data_len, mbuf.data_off, mbuf.buf_len, mbuf.buf_addr))
    places = list(places_of(view, elem))
    if not places and handler in HANDLERS:
        places = ["in use"]
    session.say("it is %s" % (", ".join(places) or "in no cache"))
    show_data(session, mbuf)


def show_data(session, mbuf):
    """The first 64 bytes of its data."""
    n = min(mbuf.data_len, 64)
    data = session.memory.read(mbuf.buf_addr + mbuf.data_off, n) if n > 0 else b""
    for k in range(0, n, 16):
        session.say("%04x: %s" % (k, " ".join("%02x" % byte for byte in data[k:k + 16])))


# ---- packets, grouped ----

MOST_DATA = 16  # bytes of the first segment that are looked at
MOST_GROUPS = 20
NO_PORT = 0xFFFF

Kind = collections.namedtuple("Kind", "segs len port data")


def packets_of(path, view):
    """The packets of a snapshot, by their segments; it has to be of this mempool."""
    try:
        with open(path) as file:
            snapshot = json.load(file)
        if snapshot["limits"]["population"] != view.size:
            raise Fault("%s is of another mempool, of %d mbufs" % (path, snapshot["limits"]["population"]))
        return {tuple((segment["elem"], segment["base"]) for segment in slot)
                for share in snapshot["shares"] for slot in share["slots"] if slot is not None}
    except OSError as error:
        raise Fault("%s can't be read: %s" % (path, error.strerror))
    except (ValueError, KeyError, TypeError):
        raise Fault("%s is no snapshot" % path)


def kind_of(session, segments):
    """What a packet has alike with others."""
    first = segments[0].mbuf
    n = min(first.data_len, MOST_DATA)
    try:
        data = session.memory.read(first.buf_addr + first.data_off, n) if n > 0 else b""
    except Fault:
        data = None
    return Kind(len(segments), sum(step.mbuf.data_len for step in segments), first.port, data)


def kind_text(kind):
    text = "segs %d len %d, %s" % (
        kind.segs, kind.len, "no port" if kind.port == NO_PORT else "port %d" % kind.port)
    if not kind.data:
        return text + (", data unknown" if kind.data is None else ", no data")
    return "%s, data %s%s" % (text, kind.data.hex(), ".." if kind.len > len(kind.data) else "")


def show_packets(session, name, paths):
    """Groups the packets in use, or those of them that are in older snapshots too."""
    view = look(session, [session.pool(name)])[0]
    pair = Dump([view], session.others([view]))
    known = [packets_of(path, view) for path in paths]
    groups = collections.defaultdict(list)
    for head, segments in pair.packets(view):
        same = tuple((step.elem, pair.base_shown(view, step)) for step in segments)
        if all(same in packets for packets in known):
            groups[kind_of(session, segments)].append(head)
    ordered = sorted(groups.items(), key=lambda group: (-len(group[1]), group[1][0]))
    front = "stays: " if paths else "in use: "
    for kind, heads in ordered[:MOST_GROUPS]:
        session.say("%s%s: %s: %s" % (front, counted(len(heads), "packet"), kind_text(kind),
                                      ", ".join("0x%x" % head for head in heads[:3])))
    rest = ordered[MOST_GROUPS:]
    if rest:
        session.say("%s%s of %s" % (front, counted(sum(len(heads) for _, heads in rest), "packet"),
                                    counted(len(rest), "more kind")))
    if not ordered:
        session.say("no packet %s" % ("stays" if paths else "is in use"))


def counted(n, what):
    return "%d %s%s" % (n, what, "" if n == 1 else "s")


def play(session, words):
    """Does what the words of a command say. Says whether all of it was done."""
    if words == ["list"]:
        list_pools(session)
    elif words[0] == "dump" and len(words) in (3, 5):
        dump(session, words[1::2], words[2::2])
    elif words[0] == "all" and len(words) == 2:
        return dump_all(session, words[1])
    elif words[0] == "mbuf" and len(words) == 3:
        show_mbuf(session, words[1], words[2])
    elif words[0] == "packets" and len(words) >= 2:
        show_packets(session, words[1], words[2:])
    else:
        raise Fault("these are the commands:\n" + USAGE)
    return True


def open_memory(core, pid):
    layout = Layout(os.environ.get("MBUFPOOL_LAYOUT") or os.path.join(HERE, "mbufpool_layout.txt"))
    if core is not None:
        return Core(layout, core)
    if pid is not None:
        return Running(layout, pid)
    found = re.search(r"core dump file:\s*`(.*)', file type", gdb.execute("info files", False, True))
    if found:
        return Core(layout, found.group(1))
    if gdb.selected_inferior().pid == 0:
        raise Fault("there is neither a core nor a process")
    return Live(layout, gdb.selected_inferior().pid)


def run(words, core, pid, out, err):
    """Runs a command, and says whether all of it was done. What goes wrong is one line."""
    session, is_well = None, False
    try:
        handler = None
        if "--handler" in words[:-1]:
            k = words.index("--handler")
            handler = words[k + 1]
            words = words[:k] + words[k + 2:]
        session = Session(open_memory(core, pid), out, err if "-" in words else out, handler)
        is_well = play(session, words or ["help"])
    except Fault as fault:
        err.write("mbufpool: %s\n" % fault)
    except Exception as error:  # (gdb would print many lines, or none)
        err.write("mbufpool: a mistake of these files, please report it: %r\n" % error)
    if session is not None:
        session.say_notes()
    return is_well


class Command(gdb.Command):
    """Snapshots of DPDK's mempools of mbufs, for `mbufpool audit FILE`."""

    def __init__(self):
        super().__init__("mbufpool", gdb.COMMAND_DATA)

    def invoke(self, argument, from_tty):
        run(gdb.string_to_argv(argument), None, None, sys.stdout, sys.stderr)


Command.__doc__ += "\n\n" + USAGE


def lcore_of_thread():
    """The lcore of the thread that gdb has chosen, as words."""
    try:
        lcore = int(gdb.parse_and_eval("*(unsigned int *)&per_lcore__lcore_id"))
    except gdb.error:
        return ""
    return "no lcore, " if lcore == 0xFFFFFFFF else "lcore %d, " % lcore


def how_it_stood():
    """Where the thread stood for which the core was made, as gdb sees it."""
    try:
        number = int(gdb.parse_and_eval("$_siginfo.si_signo"))
        name = next((s.name for s in signal.Signals if s == number), "signal %d" % number)
        frame = gdb.newest_frame()
        return "%s, %sthread %d, at 0x%x in %s" % (
            name, lcore_of_thread(), gdb.selected_thread().ptid[1], frame.pc(),
            frame.name() or "no function that is known")
    except (gdb.error, AttributeError):
        return ""


def main():
    """For mbufpool-core, which has the words in the environment, and reads lines from 3 and 4. Where it
    names no core it has a process."""
    words = [os.environ["MBUFPOOL_CORE_WORD%d" % (k + 1)]
             for k in range(int(os.environ["MBUFPOOL_CORE_WORDS"]))]
    core, pid = os.environ["MBUFPOOL_CORE"] or None, None
    if core is None:
        pid = int(os.environ["MBUFPOOL_PID"])
    with os.fdopen(3, "w") as out, os.fdopen(4, "w") as err:
        line = how_it_stood() if core is not None else ""
        if line:
            (err if "-" in words else out).write(line + "\n")
        is_well = run(words, core, pid, out, err)
    gdb.execute("quit %d" % (0 if is_well else 1))


Command()
if "MBUFPOOL_CORE_WORDS" in os.environ:
    main()
