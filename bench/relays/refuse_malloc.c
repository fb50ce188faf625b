/* refuse_malloc: preloaded into a program, it refuses each malloc of REFUSE_SIZE bytes from the first SIGUSR1 on, and
 * says how many as the program ends.  For no_memory.py.  Build:  cc -O2 -shared -fPIC refuse_malloc.c -o refuse_malloc.so */
#define _GNU_SOURCE
#include <signal.h>
#include <stdio.h>
#include <stdlib.h>
#include <unistd.h>

extern void *__libc_malloc(size_t size);

static volatile sig_atomic_t refuses;
static size_t refused_size;
static unsigned long refused;

static void begin(int signal)
{
	(void)signal;
	refuses = 1;
}

__attribute__((constructor)) static void set_up(void)
{
	const char *size = getenv("REFUSE_SIZE");
	refused_size = size ? strtoul(size, NULL, 10) : 0;
	signal(SIGUSR1, begin);
}

void *malloc(size_t size)
{
	if (refuses && size == refused_size) {
		refused++;
		return NULL;
	}
	return __libc_malloc(size);
}

__attribute__((destructor)) static void tell(void)
{
	char text[80];
	int length = snprintf(text, sizeof text, "refused %lu\n", refused);
	if (write(2, text, (size_t)length) < 0)
		_exit(1);
}
