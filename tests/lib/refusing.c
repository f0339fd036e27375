/* Stands before the allocator of a program (LD_PRELOAD) and refuses one of its growths: the one of the number
 * REFUSE_AT, from 1, or that one and each behind it where REFUSE_ON is set. At the first that it refuses it writes one
 * byte to the file REFUSE_TOLD, which is open. A growth is a call of malloc, calloc or realloc, whoever makes it: the
 * program, or the C library for a thread. */

typedef __SIZE_TYPE__ size;

extern void *__libc_malloc(size);
extern void *__libc_calloc(size, size);
extern void *__libc_realloc(void *, size);
extern int *__errno_location(void);
extern char *getenv(const char *);
extern long strtol(const char *, char **, int);
extern long write(int, const void *, size);

enum { ENOMEM = 12 };

static long refuse_at, refuse_on, refuse_told, made, refused;

static long number(const char *name)
{
	const char *text = getenv(name);

	return text ? strtol(text, 0, 10) : 0;
}

__attribute__((constructor)) static void begin(void)
{
	refuse_told = number("REFUSE_TOLD");
	refuse_on = number("REFUSE_ON");
	refuse_at = number("REFUSE_AT");
}

static int is_refused(void)
{
	long count;

	if (!refuse_at)
		return 0;
	count = __atomic_add_fetch(&made, 1, __ATOMIC_SEQ_CST);
	if (count < refuse_at || (count > refuse_at && !refuse_on))
		return 0;
	if (__atomic_add_fetch(&refused, 1, __ATOMIC_SEQ_CST) == 1)
		write((int)refuse_told, "x", 1);
	*__errno_location() = ENOMEM;
	return 1;
}

void *malloc(size bytes)
{
	return is_refused() ? 0 : __libc_malloc(bytes);
}

void *calloc(size items, size bytes)
{
	return is_refused() ? 0 : __libc_calloc(items, bytes);
}

void *realloc(void *block, size bytes)
{
	return is_refused() ? 0 : __libc_realloc(block, bytes);
}
