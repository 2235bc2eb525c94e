/* Whether files stand as they did: `look MARKS` ends with status 0 where each path that MARKS names has the change time and the number on
 * the disk that stand there, else with 1. MARKS has a line for each: seconds, nanoseconds, number and path, with a blank between two.
 *
 * `./unison` asks this before each answer, so it is one small program that starts at once: it needs no C library, nor its headers, which the
 * kit's compiler does not have. first_use/fresh compiles it, and writes the marks. */

typedef unsigned long number;
struct moment { long seconds; unsigned nanoseconds, gap; };
struct statx { /* as Linux has it */
    unsigned mask, block_size;
    number attributes;
    unsigned links, user, group;
    unsigned short mode, gap;
    number inode, size, blocks, known_attributes;
    struct moment read, made, changed, written;
    number others[16];
};

enum { READ = 0, OPEN = 2, EXIT = 60, STATX = 332 };                      /* the numbers of the system's calls */
enum { FROM_HERE = -100, NO_LINKS = 0x100, CHANGED_AND_INODE = 0x80 | 0x100 };

static char text[1 << 20];
static char *at = text;

static long call(long what, long a, long b, long c, long d, long e) {
    register long fourth __asm__("r10") = d;
    register long fifth __asm__("r8") = e;
    __asm__ volatile("syscall" : "+a"(what) : "D"(a), "S"(b), "d"(c), "r"(fourth), "r"(fifth) : "rcx", "r11", "memory");
    return what;
}

static long length_of(const char *path) {
    long got, length = 0, file = call(OPEN, (long)path, 0, 0, 0, 0);
    while ((got = call(READ, file, (long)(text + length), sizeof text - 1 - length, 0, 0)) > 0) length += got;
    return length;
}

static number next_number(void) {
    number read = 0;
    while (*at >= '0' && *at <= '9') read = 10 * read + (number)(*at++ - '0');
    if (*at) at++;
    return read;
}

static char *rest_of_line(void) {
    char *line = at;
    while (*at && *at != '\n') at++;
    if (*at) *at++ = 0;
    return line;
}

/* Whether the path of the next line stands as the line says. */
static int stands(void) {
    number seconds = next_number(), nanoseconds = next_number(), inode = next_number();
    struct statx now;
    if (call(STATX, FROM_HERE, (long)rest_of_line(), NO_LINKS, CHANGED_AND_INODE, (long)&now) < 0) return 0;
    return (number)now.changed.seconds == seconds && now.changed.nanoseconds == nanoseconds && now.inode == inode;
}

__attribute__((used)) static void begin(long count, char **words) {
    long length = count == 2 ? length_of(words[1]) : 0;
    int same = length > 0 && length < (long)sizeof text - 1; /* (a text that fills the room may go on) */
    while (same && at < text + length) same = stands();
    call(EXIT, !same, 0, 0, 0, 0);
}

__attribute__((naked, used)) void _start(void) {
    __asm__("mov (%rsp), %rdi\n lea 8(%rsp), %rsi\n and $-16, %rsp\n call begin\n");
}
