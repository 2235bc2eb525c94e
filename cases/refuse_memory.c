/* Refuses one request for memory: the one whose number, counted from 1, stands in REFUSED_REQUEST. Put before the C
 * library by LD_PRELOAD. It says on standard error that the request came. */

/* The kit's compiler has no headers of the C library, so what is called stands here. */
typedef __SIZE_TYPE__ size_t;
extern char *getenv(const char *);
extern long atol(const char *);
extern long write(int, const void *, size_t);
extern void abort(void);
extern int *__errno_location(void);
extern void *__libc_malloc(size_t);
extern void *__libc_realloc(void *, size_t);
extern void *__libc_calloc(size_t, size_t);

enum { NO_MEMORY = 12 };

static long requests;

/* Whether this request, which is counted here, is the one to refuse. */
static int is_refused(void) {
    const char *number = getenv("REFUSED_REQUEST");
    long request = __atomic_add_fetch(&requests, 1, __ATOMIC_SEQ_CST);
    if (!number || request != atol(number)) return 0;
    static const char said[] = "request refused\n";
    if (write(2, said, sizeof said - 1) < 0) abort();
    *__errno_location() = NO_MEMORY;
    return 1;
}

void *malloc(size_t size) { return is_refused() ? 0 : __libc_malloc(size); }

void *realloc(void *block, size_t size) { return is_refused() ? 0 : __libc_realloc(block, size); }

/* The start of a thread asks for memory by this one. */
void *calloc(size_t count, size_t size) { return is_refused() ? 0 : __libc_calloc(count, size); }
