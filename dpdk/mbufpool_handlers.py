# mbufpool_handlers.py - what is in the common part of a mempool, by its handler: see mbufpool_core.py.
#
# The handlers' names are in a table that has them in the order of their indices, which is known by these
# names. What lists the objects on each handler stands at the end of this file.
import re
from array import array

from mbufpool_memory import Fault

MAX_RING = 1 << 25
MAX_ELEMENTS = 16777214  # of a pool of this project


def handler_names(memory):
    """The names of handlers by their index, or none where their table isn't found."""
    layout = memory.layout
    most, size = layout.values["RTE_MEMPOOL_MAX_OPS_IDX"], layout.sizes["rte_mempool_ops"]
    ops_at, name_size = layout.at("rte_mempool_ops_table.ops"), layout.fields["rte_mempool_ops.name"][1]
    for name in HANDLERS:
        for at in memory.find(name.encode().ljust(name_size, b"\0")):
            for k in range(most):
                begin = at - ops_at - k * size
                names = names_in_table(memory, begin) if begin > 0 and begin % 64 == 0 else []
                if k < len(names):
                    return names
    return []


def names_in_table(memory, at):
    """The handlers' names, if this is their table."""
    layout, names = memory.layout, []
    try:
        count = memory.get(at, "rte_mempool_ops_table.num_ops")
        if count > layout.values["RTE_MEMPOOL_MAX_OPS_IDX"]:
            return []
        for k in range(count):
            ops = at + layout.at("rte_mempool_ops_table.ops") + k * layout.sizes["rte_mempool_ops"]
            name = memory.text(ops, "rte_mempool_ops.name")
            if not re.match(r"[^\\]+$", name) or memory.get(ops, "rte_mempool_ops.enqueue") == 0:
                return []
            names.append(name)
    except Fault:
        return []
    return names


def common_of(pool, handler):
    """The objects in the common part, from the next one to be got."""
    if handler not in HANDLERS:
        raise Fault("mempool %s: the handler %s isn't supported" % (pool.name, handler or "unknown"))
    return HANDLERS[handler](pool)


def ring_common(pool):
    memory, ring = pool.memory, pool.pool_data
    size, mask, capacity, put, got = (memory.get(ring, "rte_ring." + field) for field in (
        "size", "mask", "capacity", "prod.tail", "cons.tail"))
    if size & mask != 0 or mask != size - 1 or capacity > mask or size > MAX_RING:
        raise Fault("mempool %s: there is no ring at 0x%x" % (pool.name, ring))
    note_ring_end(pool, "put", "prod", put)
    note_ring_end(pool, "got", "cons", got)
    n, first = min((put - got) & mask, capacity), got & mask
    at = ring + memory.layout.sizes["rte_ring"]
    objects = memory.pointers(at + 8 * first, min(n, size - first))
    return objects + memory.pointers(at, n - len(objects))


def note_ring_end(pool, what, end, tail):
    """Says where a thread stood in the middle of a put or a get."""
    memory, ring = pool.memory, pool.pool_data
    kind = memory.get(ring, "rte_ring.%s.sync_type" % end)
    is_rts = kind == memory.layout.values["RTE_RING_SYNC_MT_RTS"]
    head = memory.get(ring, "rte_ring.rts_%s.head.val.pos" % end if is_rts else "rte_ring.%s.head" % end)
    if head != tail:
        pool.note("%d objects were being %s when it stood still: the ring is read as if they weren't"
                  % ((head - tail) & 0xFFFFFFFF, what))


def stack_common(pool):
    memory, stack = pool.memory, pool.pool_data
    capacity, n = memory.get(stack, "rte_stack.capacity"), memory.get(stack, "rte_stack.stack_std.len")
    if n > capacity or capacity > MAX_RING:
        raise Fault("mempool %s: there is no stack at 0x%x" % (pool.name, stack))
    objects = memory.pointers(stack + memory.layout.at("rte_stack.stack_std.objs"), n)
    objects.reverse()
    return objects


def lf_stack_common(pool):
    memory, stack, layout = pool.memory, pool.pool_data, pool.memory.layout
    capacity, n = memory.get(stack, "rte_stack.capacity"), memory.get(stack, "rte_stack.stack_lf.used.len")
    first, size = stack + layout.at("rte_stack.stack_lf.elems"), layout.sizes["rte_stack_lf_elem"]
    if capacity > MAX_RING:
        raise Fault("mempool %s: there is no stack at 0x%x" % (pool.name, stack))
    objects, seen = array("Q"), set()
    elem = memory.get(stack, "rte_stack.stack_lf.used.head.top")
    while elem != 0:
        if elem in seen or (elem - first) % size != 0 or not 0 <= elem - first < capacity * size:
            pool.note("its stack is damaged behind %d objects: a link leads to 0x%x" % (len(objects), elem))
            break
        seen.add(elem)
        objects.append(memory.get(elem, "rte_stack_lf_elem.data"))
        elem = memory.get(elem, "rte_stack_lf_elem.next")
    if elem == 0 and len(objects) != n:
        pool.note("its stack says that it has %d objects, and has %d: threads stood in a put or a get"
                  % (n, len(objects)))
    return objects


# ---- handlers of this project ----

def magazines_common(pool):
    """Of the handler mbufpool: what is in any of its magazines, each from its top, and what it keeps."""
    memory, own, layout = pool.memory, pool.pool_data, pool.memory.layout
    if "pool_magazines.magic" not in layout.fields:
        raise Fault("mempool %s: the layout was made without this handler" % pool.name)
    magic, at, count, size, kept, nb_kept = (memory.get(own, "pool_magazines." + field) for field in (
        "magic", "address", "count", "bytes", "kept", "nb_kept"))
    if magic != layout.values["MAGAZINES_MAGIC"] or size != layout.sizes["magazine"] or (
            count > layout.values["MOST_MAGAZINES"]):
        raise Fault("mempool %s: there are no magazines at 0x%x" % (pool.name, own))
    objects, words = array("Q"), memory.pointers(at, count * size // 8)
    for k in range(count):
        objects.extend(in_magazine(pool, words, k))
    if nb_kept > pool.populated_size:
        pool.note("it says that it keeps %d objects: %d are read" % (nb_kept, pool.populated_size))
    objects.extend(memory.pointers(kept, min(nb_kept, pool.populated_size)))
    return objects


def in_magazine(pool, words, k):
    """What is in a magazine, by the words of all magazines, from its top."""
    layout = pool.memory.layout
    most, begin = layout.values["MOST_ROUNDS"], k * layout.sizes["magazine"] // 8
    n = words[begin + layout.at("magazine.count") // 8]
    if n > most:
        pool.note("its magazine %d says that it has %d objects: %d are read" % (k, n, most))
    first = begin + layout.at("magazine.objects") // 8
    return reversed(words[first:first + min(n, most)])


def guard_common(pool):
    """Of mbufpool_guard: what was put last and not got since, by number."""
    memory, own, layout = pool.memory, pool.pool_data, pool.memory.layout
    if "guard_pool.pasts" not in layout.fields:
        raise Fault("mempool %s: the layout was made without this handler" % pool.name)
    known, places, objects, pasts = (memory.get(own, "guard_pool." + field) for field in (
        "known", "places.next", "objects", "pasts"))
    if known != pool.populated_size or not known <= places <= MAX_ELEMENTS:
        raise Fault("mempool %s: there is no guarded pool at 0x%x" % (pool.name, own))
    step, of = layout.sizes["past"] // 4, memory.pointers(objects, places)
    puts = array("I", memory.read(pasts, 4 * step * places))[layout.at("past.put") // 4::step]
    return array("Q", (of[k] for k in range(places) if of[k] != 0 and puts[k] != 0))


HANDLERS = {
    "ring_mp_mc": ring_common,
    "ring_sp_sc": ring_common,
    "ring_mp_sc": ring_common,
    "ring_sp_mc": ring_common,
    "ring_mt_rts": ring_common,
    "ring_mt_hts": ring_common,
    "stack": stack_common,
    "lf_stack": lf_stack_common,
    "mbufpool": magazines_common,
    "mbufpool_guard": guard_common,
}
