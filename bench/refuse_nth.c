/* refuse_nth: preloaded into a program, it refuses the allocation with the number REFUSE_NTH, counted from 1, and says on standard error,
 * as the program ends, how many it was asked for.  For refused_memory.py.  Build:  cc -O2 -shared -fPIC refuse_nth.c -o refuse_nth.so */
#define _GNU_SOURCE
#include <stdio.h>
#include <stdlib.h>
#include <unistd.h>

extern void *__libc_malloc(size_t size);
extern void *__libc_calloc(size_t count, size_t size);
extern void *__libc_realloc(void *old, size_t size);

static unsigned long asked, nth;

__attribute__((constructor)) static void set_up(void)
{
	const char *number = getenv("REFUSE_NTH");
	nth = number ? strtoul(number, NULL, 10) : 0;
	asked = 0;
}

static int refused(void)
{
	return ++asked == nth;
}

void *malloc(size_t size)
{
	return refused() ? NULL : __libc_malloc(size);
}

void *calloc(size_t count, size_t size)
{
	return refused() ? NULL : __libc_calloc(count, size);
}

void *realloc(void *old, size_t size)
{
	return refused() ? NULL : __libc_realloc(old, size);
}

__attribute__((destructor)) static void tell(void)
{
	char text[80];
	int length = snprintf(text, sizeof text, "asked %lu\n", asked);
	if (write(2, text, (size_t)length) < 0)
		_exit(1);
}
