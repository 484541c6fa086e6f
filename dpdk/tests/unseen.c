/* unseen.c - what the library calls of the C library, for a program under a thread sanitizer. The sanitizer
 * sees each memcpy() of the program and of what is linked to it; but not the library's atomic steps, which
 * aren't instrumented, and by which a magazine passes from thread to thread. So of magazines it would tell
 * races that aren't there. By these functions, which aren't instrumented either, it sees nothing of them:
 * what it looks at is the handler, the program, and the objects that they have. */
#include <stddef.h>
#include <stdint.h>

void *unseen_memmove(void *to, const void *from, size_t n);
void *unseen_memcpy(void *to, const void *from, size_t n);
void *unseen_memset(void *at, int byte, size_t n);

void *
unseen_memmove(void *to, const void *from, size_t n)
{
	const unsigned char *source = from;
	unsigned char *target = to;
	size_t i;

	if ((uintptr_t)to - (uintptr_t)from >= n)
		for (i = 0; i < n; i++)
			target[i] = source[i];
	else
		for (i = n; i > 0; i--)
			target[i - 1] = source[i - 1];
	return to;
}

void *
unseen_memcpy(void *to, const void *from, size_t n)
{
	return unseen_memmove(to, from, n);
}

void *
unseen_memset(void *at, int byte, size_t n)
{
	unsigned char *target = at;
	size_t i;

	for (i = 0; i < n; i++)
		target[i] = byte;
	return at;
}
