# mbufpool_snapshot.py - the snapshot of a mempool of mbufs, from a core: the same text as mbufpool_dump()
# and mbufpool_dump_pair() of dump.c write in the process. See mbufpool_core.py.
import bisect
import collections
from array import array

from mbufpool_handlers import common_of
from mbufpool_memory import Fault

MAX_POPULATION = 16777214
MAX_WORKERS = 64
MAX_GUESTS = 8192  # for each worker
NO_ELEM = 0xFFFFFFFF

# Marks of an element: it is free, a `next` leads to it, it is in a packet that was found.
IS_FREE = 1
IS_NAMED = 2
IS_REACHED = 4

Step = collections.namedtuple("Step", "at mbuf view elem last is_wild")


class View:
    """A pool of mbufs, and what is known of its elements: first what doesn't change as the pool is used,
    and once it is filled where they are and what they say."""

    def __init__(self, pool, handler):
        self.pool, self.size = pool, pool.populated_size
        if not pool.has_mbufs():
            raise Fault("mempool %s isn't one of mbufs" % pool.name)
        if not 0 < self.size <= MAX_POPULATION:
            raise Fault("mempool %s: it has %d objects: 1 to %d can be audited"
                        % (pool.name, self.size, MAX_POPULATION))
        self.mbufs = pool.objects()
        self.by_address = array("I", sorted(range(self.size), key=self.mbufs.__getitem__))
        self.addresses = array("Q", (self.mbufs[e] for e in self.by_address))
        self.marks = bytearray(self.size)
        self.clones = collections.Counter()  # how many in use have its buffer
        self.based = self.foreign = self.guests = 0
        self.handler, self.headers = handler, None

    def fill(self):
        """Reads where the elements are; and what each says, of a process that goes on."""
        memory, size = self.pool.memory, self.pool.memory.layout.sizes["rte_mbuf"]
        self.common = common_of(self.pool, self.handler) if self.handler is not None else array("Q")
        self.caches = self.pool.caches()
        if memory.goes_on:
            self.headers = [memory.read(at, size) for at in self.mbufs]

    def mark_all_free(self):
        for at in self.common:
            self.mark_free(at)
        for _, objects in self.caches:
            for at in objects:
                self.mark_free(at)

    def mark_free(self, at):
        elem = self.find(at)
        if elem != NO_ELEM:
            self.marks[elem] |= IS_FREE

    def find(self, at):
        """The number of an object, or NO_ELEM."""
        k = bisect.bisect_left(self.addresses, at)
        return self.by_address[k] if k < self.size and self.addresses[k] == at else NO_ELEM

    def mbuf(self, elem):
        if self.headers is None:
            return self.pool.memory.mbuf(self.mbufs[elem])
        layout = self.pool.memory.layout
        return layout.Mbuf._make(layout.unpack_mbuf(self.headers[elem]))

    def is_foreign(self):
        """Whether the bases of its packets are elements of the other pool."""
        return self.foreign > 0 and self.based == 0

    def nb_workers(self):
        """How many workers a snapshot has. A pool with many guests gets some that have nothing."""
        return max(min(1 + len(self.caches), MAX_WORKERS), -(-self.guests // MAX_GUESTS))

    def worker_lines(self):
        yield "worker 1: the application"
        for k, (lcore, objects) in enumerate(self.caches):
            yield "worker %d: lcore %d, cache of %d" % (min(k + 2, MAX_WORKERS), lcore, len(objects))


def fill_all(views):
    """Fills views of pools, while a process stands, for no longer than that takes."""
    memory = views[0].pool.memory
    memory.hold()
    try:
        for view in views:
            view.fill()
    finally:
        memory.let_go()
    for view in views:
        view.mark_all_free()


class Dump:
    """Snapshots of a pool or two, with all packets that are in use."""

    def __init__(self, views, others):
        self.views, self.memory = views, views[0].pool.memory
        self.others = others  # begin and end of each chunk of other mempools' memory, with the mempool
        self.heads = []
        for view in views:
            if all(view.mbuf(e).pool != view.pool.at for e in range(view.size)):
                raise Fault("mempool %s isn't one of mbufs: no object says that it is its"
                            % view.pool.name)
        self.find_heads()
        self.count_bases()

    def locate(self, at):
        for view in self.views:
            elem = view.find(at)
            if elem != NO_ELEM:
                return view, elem
        return None, NO_ELEM

    def locate_base(self, mbuf):
        """The pool of the buffer that a clone uses, or None if it uses none of these pools."""
        values = self.memory.layout.values
        if not mbuf.ol_flags & values["RTE_MBUF_F_INDIRECT"] or (
                mbuf.ol_flags & values["RTE_MBUF_F_EXTERNAL"]):
            return None, NO_ELEM
        return self.locate(mbuf.buf_addr - self.memory.layout.sizes["rte_mbuf"] - mbuf.priv_size)

    def is_of_another(self, at):
        """Whether what isn't an element of these pools is an mbuf of another mempool."""
        end = at + self.memory.layout.sizes["rte_mbuf"]
        try:
            return at % 8 == 0 and any(
                begin <= at and end <= stop and self.memory.mbuf(at).pool == pool
                for begin, stop, pool in self.others)
        except Fault:
            return False

    def walk(self, at):
        """Goes along a chain. A segment that the walk has met before is its last, and so is what is no
        mbuf, of which nothing is read."""
        seen, view, strange = set(), None, 0
        while at != 0:
            last = view
            view, elem = self.locate(at)
            is_last = view is not None and at in seen
            if view is not None:
                seen.add(at)
            elif strange == 0xFFFF or not self.is_of_another(at):
                yield Step(at, None, None, NO_ELEM, last, True)
                return
            else:
                strange += 1
            mbuf = self.memory.mbuf(at)
            yield Step(at, mbuf, view, elem, last, False)
            if is_last:
                return
            at = mbuf.next

    def is_own(self, view, elem):
        """Whether an mbuf is one of a packet: it is in use, and not by clones of it alone."""
        if view.marks[elem] & IS_FREE:
            return False
        clones = view.clones[elem] if elem in view.clones else 0
        return clones == 0 or view.mbuf(elem).refcnt > clones

    def add_heads(self, marks):
        """Adds the packets that begin at elements without these marks."""
        for view in self.views:
            for elem in range(view.size):
                if view.marks[elem] & marks or not self.is_own(view, elem):
                    continue
                self.heads.append(view.mbufs[elem])
                for step in self.walk(view.mbufs[elem]):
                    if step.view is not None:
                        step.view.marks[step.elem] |= IS_REACHED

    def find_heads(self):
        """Finds where the packets in use begin: at each mbuf that no other names, and then somewhere
        in each chain that goes round."""
        for view in self.views:
            for elem in range(view.size):
                if not view.marks[elem] & IS_FREE:
                    base, base_elem = self.locate_base(view.mbuf(elem))
                    if base is not None:
                        base.clones[base_elem] += 1
        for view in self.views:
            for elem in range(view.size):
                if self.is_own(view, elem):
                    for step in self.walk(view.mbuf(elem).next):
                        if step.view is not None:
                            step.view.marks[step.elem] |= IS_NAMED
                            break
        self.add_heads(IS_NAMED)
        self.add_heads(IS_REACHED)

    def count_bases(self):
        for head in self.heads:
            for step in self.walk(head):
                base = None if step.is_wild else self.locate_base(step.mbuf)[0]
                if base is None:
                    continue
                if step.view is base:
                    base.based += 1
                    continue
                base.guests += 1
                if step.view is not None:
                    step.view.foreign += 1
        for view in self.views:
            if view.guests > MAX_GUESTS * MAX_WORKERS:
                raise Fault("mempool %s: more than %d packets of another have clones of it"
                            % (view.pool.name, MAX_GUESTS * MAX_WORKERS))

    def base_shown(self, view, step):
        """The number of the mbuf whose buffer a clone uses, as a snapshot has it, or None."""
        base, elem = self.locate_base(step.mbuf)
        return elem if base is not None and (base is view) != view.is_foreign() else None

    def packets(self, view):
        """Each packet that begins in this pool: its first mbuf, and its segments in the pool."""
        for head in self.heads:
            if view.find(head) != NO_ELEM:
                yield head, [step for step in self.walk(head) if step.view is view]

    def segment_text(self, view, step):
        base = self.base_shown(view, step)
        return '{"elem":%d,"base":%s,"off":%d,"len":%d,"buf":%d}' % (
            step.elem, "null" if base is None else base, step.mbuf.data_off, step.mbuf.data_len,
            step.mbuf.buf_len)

    def packet_text(self, view, head):
        """The segments of a packet that are of this pool, or null if there is none. What is no mbuf
        stands as an element that no pool has, in the pool that its `next` was in."""
        segments = []
        for step in self.walk(head):
            if step.is_wild and view is (step.last or self.views[0]):
                segments.append('{"elem":%d,"base":null,"off":0,"len":0,"buf":0}' % NO_ELEM)
            elif step.view is view:
                segments.append(self.segment_text(view, step))
        return "[" + ",".join(segments) + "]" if segments else "null"

    def share_texts(self, view):
        slots = ",".join("\n" + self.packet_text(view, head) for head in self.heads)
        yield '{"worker":1,"cache":[],"slots":[%s]}' % slots
        caches = [objects for _, objects in view.caches]
        for objects in caches[MAX_WORKERS - 1:]:  # the last worker has those of further lcores
            caches[MAX_WORKERS - 2] = caches[MAX_WORKERS - 2] + objects
        caches = caches[:MAX_WORKERS - 1]
        while len(caches) + 1 < view.nb_workers():
            caches.append(array("Q"))
        for k, objects in enumerate(caches):
            yield '{"worker":%d,"cache":[%s],"slots":[]}' % (k + 2, self.numbers(view, objects))

    def guest_texts(self, view):
        for head in self.heads:
            for step in self.walk(head):
                if step.is_wild or step.view is view:
                    continue
                base, elem = self.locate_base(step.mbuf)
                if base is view:
                    yield '{"worker":1,"elem":%d}' % elem

    def numbers(self, view, objects):
        return ",".join(str(view.find(at)) for at in objects)

    def text(self, view):
        """The snapshot of a pool."""
        yield '{"limits":{"population":%d,"cache":%d' % (view.size, view.pool.cache_size)
        yield ',"workers":%d,"desks":0,"buf":%d' % (
            view.nb_workers(), view.pool.private("mbuf_data_room_size"))
        yield ',"refs":65535,"tries":64,"start":0,"putrule":%d},\n' % (
            self.memory.layout.values["PUT_RULE"])
        yield '"common":[%s],\n' % self.numbers(view, view.common)
        yield '"counts":[%s],\n' % ",".join(str(view.mbuf(e).refcnt) for e in range(view.size))
        yield '"desks":[],\n"shares":[%s],\n' % ",\n".join(self.share_texts(view))
        yield '"guests":[%s],\n' % ",".join(self.guest_texts(view))
        yield '"foreign":%s}\n' % ("true" if view.is_foreign() else "false")
