/* dump_handlers.c - the table of mempool handlers of another process, by which its ops_index is a name.
 *
 * The table is the variable rte_mempool_ops_table: of the program, where that has it linked in or has a
 * copy of the library's (as a program that names a library's variable most often has), else of
 * librte_mempool.so. Its address is that in the file's table of symbols, on from where the file is
 * mapped. */
#ifndef _GNU_SOURCE
#define _GNU_SOURCE
#endif
#include <ctype.h>
#include <elf.h>
#include <fcntl.h>
#include <inttypes.h>
#include <limits.h>
#include <stdio.h>
#include <stdlib.h>
#include <string.h>
#include <sys/mman.h>
#include <sys/stat.h>
#include <sys/uio.h>
#include <unistd.h>

#include "dump_handlers.h"

#define TABLE "rte_mempool_ops_table"
#define LIBRARY "/librte_mempool.so"

/* A file that is mapped here, as it is on the disk. */
struct file {
	const unsigned char *at;
	size_t bytes;
};

static int
is_within(const struct file *f, uint64_t from, uint64_t bytes)
{
	return from <= f->bytes && bytes <= f->bytes - from;
}

/* ---- the symbol in a file ---- */

static const Elf64_Shdr *
section(const struct file *f, const Elf64_Ehdr *elf, uint32_t index)
{
	uint64_t at = elf->e_shoff + (uint64_t)index * sizeof(Elf64_Shdr);

	return index < elf->e_shnum && is_within(f, at, sizeof(Elf64_Shdr))
		       ? (const Elf64_Shdr *)(f->at + at)
		       : NULL;
}

/* The value of the table's symbol among those of a section, or 0. */
static uint64_t
value_in(const struct file *f, const Elf64_Ehdr *elf, const Elf64_Shdr *symbols)
{
	const Elf64_Shdr *names = section(f, elf, symbols->sh_link);
	const Elf64_Sym *all = (const Elf64_Sym *)(f->at + symbols->sh_offset), *s;

	if (names == NULL || !is_within(f, symbols->sh_offset, symbols->sh_size) ||
	    !is_within(f, names->sh_offset, names->sh_size))
		return 0;
	for (s = all; s < all + symbols->sh_size / sizeof(*s); s++)
		if (s->st_shndx != SHN_UNDEF && s->st_name <= names->sh_size &&
		    names->sh_size - s->st_name >= sizeof(TABLE) &&
		    memcmp(f->at + names->sh_offset + s->st_name, TABLE, sizeof(TABLE)) == 0)
			return s->st_value;
	return 0;
}

/* Where the table is, if the file is mapped from `base` on; or 0 where it has none. */
static uint64_t
address_in(const struct file *f, uint64_t base)
{
	const Elf64_Ehdr *elf = (const Elf64_Ehdr *)f->at;
	const Elf64_Shdr *s;
	uint64_t value = 0;
	uint32_t k;

	if (f->bytes < sizeof(*elf) || memcmp(elf->e_ident, ELFMAG, SELFMAG) != 0 ||
	    elf->e_ident[EI_CLASS] != ELFCLASS64 || elf->e_shentsize != sizeof(Elf64_Shdr))
		return 0;
	for (k = 0; value == 0 && (s = section(f, elf, k)) != NULL; k++)
		if (s->sh_type == SHT_DYNSYM || s->sh_type == SHT_SYMTAB)
			value = value_in(f, elf, s);
	return value == 0 ? 0 : value + (elf->e_type == ET_DYN ? base : 0);
}

static uint64_t
address_in_file(const char *path, uint64_t base)
{
	struct file f = {.at = MAP_FAILED};
	struct stat status;
	uint64_t address = 0;
	int fd = open(path, O_RDONLY | O_CLOEXEC);

	if (fd >= 0 && fstat(fd, &status) == 0 && status.st_size > 0) {
		f.bytes = status.st_size;
		f.at = mmap(NULL, f.bytes, PROT_READ, MAP_PRIVATE, fd, 0);
	}
	if (f.at != MAP_FAILED) {
		address = address_in(&f, base);
		munmap((void *)(uintptr_t)f.at, f.bytes);
	}
	if (fd >= 0)
		close(fd);
	return address;
}

/* ---- where it is in the process ---- */

/* Where a process has a file mapped from its begin on, or 0: its program, or else the first whose path
 * has this in it, which `path` gets. */
static uint64_t
find_mapped(pid_t pid, const char *wanted, char *path)
{
	char maps[64], *line = NULL, *name;
	uint64_t from, offset, base = 0;
	size_t room = 0;
	FILE *f;

	snprintf(maps, sizeof(maps), "/proc/%ld/maps", (long)pid);
	f = fopen(maps, "r");
	while (f != NULL && base == 0 && getline(&line, &room, f) > 0) {
		name = strchr(line, '/');
		if (name == NULL || strstr(name, wanted) == NULL ||
		    sscanf(line, "%" SCNx64 "-%*x %*s %" SCNx64, &from, &offset) != 2 || offset != 0)
			continue;
		name[strcspn(name, "\n")] = 0;
		snprintf(path, PATH_MAX, "/proc/%ld/root%s", (long)pid, name);
		base = from;
	}
	if (f != NULL)
		fclose(f);
	free(line);
	return base;
}

static uint64_t
find_table(pid_t pid)
{
	char exe[64], program[PATH_MAX / 2], path[PATH_MAX];
	uint64_t base, address = 0;
	ssize_t n;

	snprintf(exe, sizeof(exe), "/proc/%ld/exe", (long)pid);
	n = readlink(exe, program, sizeof(program) - 1);
	program[n > 0 ? n : 0] = 0;
	if (n > 0 && (base = find_mapped(pid, program, path)) != 0)
		address = address_in_file(exe, base);
	if (address == 0 && (base = find_mapped(pid, LIBRARY, path)) != 0)
		address = address_in_file(path, base);
	return address;
}

/* ---- its names ---- */

static int
is_name(const char *name)
{
	size_t k;

	for (k = 0; k < RTE_MEMPOOL_OPS_NAMESIZE && name[k] != 0; k++)
		if (!isgraph((unsigned char)name[k]))
			return 0;
	return k > 0 && k < RTE_MEMPOOL_OPS_NAMESIZE;
}

void
handlers_read(struct handlers *h, pid_t pid)
{
	static struct rte_mempool_ops_table table;
	struct iovec here = {&table, sizeof(table)}, there = {NULL, sizeof(table)};
	uint64_t address = pid > 0 ? find_table(pid) : 0;

	memset(h, 0, sizeof(*h));
	there.iov_base = (void *)(uintptr_t)address;
	if (address == 0 || process_vm_readv(pid, &here, 1, &there, 1, 0) != sizeof(table) ||
	    table.num_ops > RTE_MEMPOOL_MAX_OPS_IDX)
		return;
	while (h->count < table.num_ops && is_name(table.ops[h->count].name)) {
		strcpy(h->names[h->count], table.ops[h->count].name);
		h->count++;
	}
}

const char *
handlers_name(const struct handlers *h, int32_t index)
{
	return index >= 0 && (uint32_t)index < h->count ? h->names[index] : NULL;
}
