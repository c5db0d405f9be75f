/* A library to be loaded before the C library's: it refuses one growth of memory, one read or one write, counted
 * from the start of `main`. REFUSE_GROWTH, REFUSE_READ and REFUSE_WRITE say which one; REFUSE_COUNTS names a file
 * that gets the three counts at the end. REFUSE_IN names the program in which it refuses, where others are started
 * on the way, as by valgrind. */
#define _GNU_SOURCE
#include <dlfcn.h>
#include <errno.h>
#include <stdatomic.h>
#include <stdio.h>
#include <stdlib.h>
#include <string.h>
#include <sys/syscall.h>
#include <unistd.h>

extern void *__libc_malloc(size_t);
extern void *__libc_calloc(size_t, size_t);
extern void *__libc_realloc(void *, size_t);
extern void *__libc_memalign(size_t, size_t);

/* The C library's own, until the next ones behind this library are known, which may be valgrind's. */
static void *(*next_malloc)(size_t) = __libc_malloc;
static void *(*next_calloc)(size_t, size_t) = __libc_calloc;
static void *(*next_realloc)(void *, size_t) = __libc_realloc;
static void *(*next_memalign)(size_t, size_t) = __libc_memalign;

static atomic_long growths, reads, writes;
static long growth_refused, read_refused, write_refused;

static long number(const char *name)
{
	const char *value = getenv(name);
	return value ? atol(value) : 0;
}

__attribute__((constructor)) static void begin(void)
{
	const char *name = getenv("REFUSE_IN");
	if (name && strcmp(program_invocation_short_name, name))
		return;
	next_malloc = (void *(*)(size_t))dlsym(RTLD_NEXT, "malloc");
	next_calloc = (void *(*)(size_t, size_t))dlsym(RTLD_NEXT, "calloc");
	next_realloc = (void *(*)(void *, size_t))dlsym(RTLD_NEXT, "realloc");
	next_memalign = (void *(*)(size_t, size_t))dlsym(RTLD_NEXT, "memalign");
	atomic_store(&growths, 0);
	growth_refused = number("REFUSE_GROWTH");
	read_refused = number("REFUSE_READ");
	write_refused = number("REFUSE_WRITE");
}

static void tell_counts(void)
{
	const char *name = getenv("REFUSE_COUNTS");
	long counts[3] = {growths, reads, writes};
	growth_refused = 0;
	FILE *out = name ? fopen(name, "w") : NULL;
	if (out) {
		fprintf(out, "%ld %ld %ld\n", counts[0], counts[1], counts[2]);
		fclose(out);
	}
}

/* The program ends by this call, so that no destructor is run. */
void _exit(int status)
{
	tell_counts();
	syscall(SYS_exit_group, status);
	__builtin_unreachable();
}

static int is_refused(void)
{
	if (atomic_fetch_add(&growths, 1) + 1 != growth_refused)
		return 0;
	errno = ENOMEM;
	return 1;
}

void *malloc(size_t size)
{
	return is_refused() ? NULL : next_malloc(size);
}

void *calloc(size_t count, size_t size)
{
	return is_refused() ? NULL : next_calloc(count, size);
}

void *realloc(void *old, size_t size)
{
	return is_refused() ? NULL : next_realloc(old, size);
}

void *aligned_alloc(size_t alignment, size_t size)
{
	return is_refused() ? NULL : next_memalign(alignment, size);
}

int posix_memalign(void **out, size_t alignment, size_t size)
{
	void *made = is_refused() ? NULL : next_memalign(alignment, size);
	if (!made)
		return ENOMEM;
	*out = made;
	return 0;
}

ssize_t read(int file, void *bytes, size_t size)
{
	static ssize_t (*real)(int, void *, size_t);
	if (!real)
		real = (ssize_t (*)(int, void *, size_t))dlsym(RTLD_NEXT, "read");
	if (atomic_fetch_add(&reads, 1) + 1 == read_refused) {
		errno = EIO;
		return -1;
	}
	return real(file, bytes, size);
}

ssize_t write(int file, const void *bytes, size_t size)
{
	static ssize_t (*real)(int, const void *, size_t);
	if (!real)
		real = (ssize_t (*)(int, const void *, size_t))dlsym(RTLD_NEXT, "write");
	if (file == 1 && atomic_fetch_add(&writes, 1) + 1 == write_refused) {
		errno = EIO;
		return -1;
	}
	return real(file, bytes, size);
}
