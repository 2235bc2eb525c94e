/* Linked into a program that the kit's runner compiles, runs and removes: as it starts, it copies the program that it stands in to the file
 * KEEP. The folder of KEEP is there only while the program is built, so that the copy does nothing when it is run. */

/* The kit's compiler has no headers of the C library, so what is called stands here. */
typedef __SIZE_TYPE__ size_t;
extern int open(const char *, int, ...);
extern long read(int, void *, size_t);
extern long write(int, const void *, size_t);
extern int close(int);
extern int rename(const char *, const char *);
struct place { const char *file; void *base; const char *name; void *address; };
extern int dladdr(const void *, struct place *);

enum { READ_ONLY = 0, WRITE_NEW = 01 | 0100 | 0200, MODE = 0755, BLOCK = 1 << 16 };

__attribute__((constructor)) static void keep(void) {
    static char block[BLOCK];
    long got;
    struct place here;
    int to = open(KEEP ".part", WRITE_NEW, MODE);
    if (to < 0 || !dladdr((void *)keep, &here)) return;
    int from = open(here.file, READ_ONLY);
    if (from < 0) return;
    while ((got = read(from, block, BLOCK)) > 0)
        if (write(to, block, (size_t)got) != got) return;
    close(from);
    if (got == 0 && close(to) == 0) rename(KEEP ".part", KEEP);
}
