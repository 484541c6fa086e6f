/*
 * A library that is loaded in front of the C library (LD_PRELOAD) and tells what a process does on
 * one block of its memory, instruction by instruction.
 *
 * A mark is a request for MARK_BYTES and some more: with it begins the call of which these are the
 * number, and where there are none more the last call has ended. The block is the last one of
 * BLOCK_BYTES that was asked for ahead of the first call. Behind the end another may follow.
 *
 * The block has pages of its own, which are closed from the first call to the end. So each
 * instruction that touches it faults, whatever made it: it is told, and then done alone, with the
 * pages open for it (the processor's trap flag). No instruction is missed, and none is changed.
 *
 * The file that OPERATIONS names gets a line for each mark, `call` and its number, and one for each
 * instruction, what it is and which word of 8 bytes it touches:
 *
 *   load       a plain read
 *   store      an exchange (xchg), which is how a sequentially consistent store is done
 *   add        an addition or a subtraction, with the lock prefix
 *   exchange   a compare-and-exchange, with the lock prefix
 *   other      any other, or one of another width, with its first bytes
 *
 * Where the processor doesn't stop behind a single instruction, its first line is `unstepped`, and
 * nothing is watched. It is for x86-64 and Linux.
 */
#define _GNU_SOURCE
#include <fcntl.h>
#include <signal.h>
#include <stdbool.h>
#include <stddef.h>
#include <stdint.h>
#include <stdio.h>
#include <stdlib.h>
#include <sys/mman.h>
#include <ucontext.h>
#include <unistd.h>

extern void *__libc_malloc(size_t size);
extern void __libc_free(void *block);

enum { TRAP_FLAG = 0x100, PAGE_BYTES = 4096, LINE_BYTES = 64, MOST_BLOCKS = 8 };

/* What the environment says, once it has been read. */
static size_t block_bytes;
static size_t mark_bytes;
static int note = -1;

/* The blocks of this size, each on pages of its own. None is reused. */
static void *blocks[MOST_BLOCKS];
static size_t block_count;

/* The pages that are watched, and whether they are closed but for single instructions. */
static unsigned char *pages;
static size_t page_bytes;
static bool is_closed;

/* How many instructions on them were done alone, and whether that was tried and is done here. */
static unsigned long stepped;
static bool has_tried;
static bool can_step;

/* What an instruction is that faulted. */
static const char *kind_of(const unsigned char *code)
{
    bool is_locked = false;
    bool is_wide = false;
    for (; *code == 0xf0 || (*code & 0xf0) == 0x40; code++) {
        is_locked |= *code == 0xf0;
        is_wide |= (*code & 0xf8) == 0x48;
    }
    if (!is_wide)
        return "other";
    if (!is_locked)
        return *code == 0x8b ? "load" : *code == 0x87 ? "store" : "other";
    switch (*code) {
    case 0x01: /* add, of a register */
    case 0x29: /* sub */
    case 0xff: /* inc and dec */
        return "add";
    case 0x81: /* of a constant: add and sub, by three bits of the byte behind */
    case 0x83: {
        unsigned operation = code[1] >> 3 & 7;
        return operation == 0 || operation == 5 ? "add" : "other";
    }
    case 0x0f:
        return code[1] == 0xc1 ? "add" : code[1] == 0xb1 ? "exchange" : "other";
    default:
        return "other";
    }
}

/* Writes a line, which snprintf has made. */
static void tell(const char *line, int length)
{
    if (length < 0 || length >= LINE_BYTES || write(note, line, (size_t)length) != length)
        abort();
}

static void set_pages(int access)
{
    if (mprotect(pages, page_bytes, access))
        abort();
}

/* An instruction is about to touch the pages: tells it, and has it done alone. */
static void at_fault(int number, siginfo_t *fault, void *context)
{
    mcontext_t *machine = &((ucontext_t *)context)->uc_mcontext;
    unsigned char *place = fault->si_addr;
    if (!is_closed || place < pages || place >= pages + page_bytes) {
        signal(number, SIG_DFL);
        return;
    }
    const unsigned char *code = (const unsigned char *)machine->gregs[REG_RIP];
    size_t offset = (size_t)(place - pages);
    const char *kind = kind_of(code);
    char line[LINE_BYTES];
    if (offset % 8 == 0 && *kind != 'o')
        tell(line, snprintf(line, sizeof line, "%s %zu\n", kind, offset / 8));
    else
        tell(line, snprintf(line, sizeof line, "other %zu %02x%02x%02x%02x\n", offset / 8, code[0],
                            code[1], code[2], code[3]));
    set_pages(PROT_READ | PROT_WRITE);
    machine->gregs[REG_EFL] |= TRAP_FLAG;
}

/* The instruction is done. */
static void at_step(int number, siginfo_t *trap, void *context)
{
    (void)number;
    (void)trap;
    ((ucontext_t *)context)->uc_mcontext.gregs[REG_EFL] &= ~(greg_t)TRAP_FLAG;
    stepped++;
    set_pages(PROT_NONE);
}

/* Has this function called at a signal. */
static void at_signal(int number, void (*function)(int, siginfo_t *, void *))
{
    struct sigaction action = {.sa_flags = SA_SIGINFO, .sa_sigaction = function};
    if (sigemptyset(&action.sa_mask) || sigaction(number, &action, NULL))
        abort();
}

/* Pages of their own with this many bytes, or NULL. */
static void *pages_of(size_t bytes)
{
    void *made = mmap(NULL, bytes, PROT_READ | PROT_WRITE, MAP_PRIVATE | MAP_ANONYMOUS, -1, 0);
    return made == MAP_FAILED ? NULL : made;
}

/* Watches the pages of a block from now on. */
static void watch(void *watched, size_t bytes)
{
    pages = watched;
    page_bytes = (bytes + PAGE_BYTES - 1) / PAGE_BYTES * PAGE_BYTES;
    is_closed = true;
    set_pages(PROT_NONE);
}

/* Watches nothing any more. */
static void end_watch(void)
{
    if (is_closed)
        set_pages(PROT_READ | PROT_WRITE);
    is_closed = false;
}

/* Whether one instruction can be done alone here: tries it at a page that nobody uses. */
static bool is_steppable(void)
{
    volatile uint64_t *tried = pages_of(sizeof *tried);
    if (!tried)
        abort();
    at_signal(SIGSEGV, at_fault);
    at_signal(SIGTRAP, at_step);
    watch((void *)tried, sizeof *tried);
    (void)*tried;
    end_watch();
    if (ftruncate(note, 0) || lseek(note, 0, SEEK_SET))
        abort();
    return stepped == 1;
}

/* A call begins, or with 0 the last one has ended. */
static void at_mark(size_t call)
{
    if (!call) {
        end_watch();
        return;
    }
    if (!has_tried) {
        has_tried = true;
        can_step = is_steppable();
        if (!can_step)
            tell("unstepped\n", sizeof "unstepped\n" - 1);
    }
    if (can_step && !is_closed && block_count)
        watch(blocks[block_count - 1], block_bytes);
    char line[LINE_BYTES];
    tell(line, snprintf(line, sizeof line, "call %zu\n", call));
}

void *malloc(size_t size)
{
    if (mark_bytes && size >= mark_bytes)
        at_mark(size - mark_bytes);
    if (block_bytes && size == block_bytes && block_count < MOST_BLOCKS) {
        void *made = pages_of(size);
        if (made)
            blocks[block_count++] = made;
        return made;
    }
    return __libc_malloc(size);
}

void free(void *block)
{
    for (size_t i = 0; i < block_count; i++) {
        if (blocks[i] == block)
            return;
    }
    __libc_free(block);
}

/* The number that this variable of the environment has, or 0. */
static size_t number_in(const char *variable)
{
    const char *number = getenv(variable);
    return number ? strtoul(number, NULL, 10) : 0;
}

__attribute__((constructor)) static void read_environment(void)
{
    const char *file = getenv("OPERATIONS");
    if (!file)
        return;
    note = open(file, O_RDWR | O_CREAT | O_TRUNC | O_CLOEXEC, 0600);
    if (note < 0)
        abort();
    block_bytes = number_in("BLOCK_BYTES");
    mark_bytes = number_in("MARK_BYTES");
}
