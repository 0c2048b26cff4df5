/*
 * Refuses memory to the program that it is loaded before (LD_PRELOAD): to its call number REFUSE_FIRST of malloc, calloc and
 * realloc, counted from 1, and with REFUSE_ONWARD=1 also to all later ones. 0 refuses none.
 *
 * With REFUSE_WHOLE=1 the calls of the whole program count. Else those count that lie between the begin and the end of a marked
 * call; the marks are the allocations of module `marks` of test_samples, by their sizes.
 *
 * With REFUSE_THREAD=n the program's call number n of pthread_create, counted from 1, is refused.
 *
 * It keeps three numbers in the file REFUSE_COUNTS, which stay however the program ends: how many calls counted, how many of
 * them were refused, and how many marked calls answered want of memory.
 */
#define _GNU_SOURCE
#include <dlfcn.h>
#include <errno.h>
#include <fcntl.h>
#include <pthread.h>
#include <stdatomic.h>
#include <stdlib.h>
#include <sys/mman.h>
#include <unistd.h>

enum { BEGIN = 770001, END = 770002, WANTED = 770003 };

extern void *__libc_malloc(size_t size);
extern void *__libc_calloc(size_t count, size_t size);
extern void *__libc_realloc(void *block, size_t size);

struct counts {
	atomic_ulong counted, refused, wanted;
};

static unsigned long first, thread;
static int onward;
static atomic_int counting;
static struct counts none, *counts = &none;

static int is_set(const char *name)
{
	const char *text = getenv(name);

	return text && *text == '1';
}

/* Keeps the counts in a file. */
static void keep(const char *path)
{
	int file = open(path, O_RDWR | O_CREAT, 0666);
	void *kept;

	if (file < 0 || ftruncate(file, sizeof(struct counts)) != 0)
		return;
	kept = mmap(NULL, sizeof(struct counts), PROT_READ | PROT_WRITE, MAP_SHARED, file, 0);
	if (kept != MAP_FAILED)
		counts = kept;
	close(file);
}

__attribute__((constructor)) static void start(void)
{
	const char *number = getenv("REFUSE_FIRST");
	const char *path = getenv("REFUSE_COUNTS");

	if (path)
		keep(path);
	first = number ? strtoul(number, NULL, 10) : 0;
	number = getenv("REFUSE_THREAD");
	thread = number ? strtoul(number, NULL, 10) : 0;
	onward = is_set("REFUSE_ONWARD");
	counting = is_set("REFUSE_WHOLE");
}

/* Whether the size is a mark, which is noted. */
static int is_mark(size_t size)
{
	if (size == BEGIN)
		counting = 1;
	else if (size == END || size == WANTED)
		counting = 0;
	else
		return 0;
	counts->wanted += size == WANTED;
	return 1;
}

/* Whether an allocation of this size is to be refused. */
static int refuses(size_t size)
{
	unsigned long number;

	if (is_mark(size) || !counting)
		return 0;
	number = atomic_fetch_add(&counts->counted, 1) + 1;
	if (first == 0 || number < first || (number > first && !onward))
		return 0;
	counts->refused++;
	errno = ENOMEM;
	return 1;
}

void *malloc(size_t size)
{
	return refuses(size) ? NULL : __libc_malloc(size);
}

void *calloc(size_t count, size_t size)
{
	return refuses(size) ? NULL : __libc_calloc(count, size);
}

void *realloc(void *block, size_t size)
{
	return refuses(size) ? NULL : __libc_realloc(block, size);
}

int pthread_create(pthread_t *id, const pthread_attr_t *attributes, void *(*routine)(void *), void *argument)
{
	static atomic_ulong started;
	int (*next)(pthread_t *, const pthread_attr_t *, void *(*)(void *), void *);

	if (atomic_fetch_add(&started, 1) + 1 == thread)
		return EAGAIN;
	*(void **)&next = dlsym(RTLD_NEXT, "pthread_create");
	return next(id, attributes, routine, argument);
}
