/* Loaded before a program, this library refuses it memory, and lets its reads and writes fail. tests/failing.py says how
   it is told what to do. It needs no header, since the toolchain has none.

   A growth is a call of malloc or realloc. Growths are counted while the window is open, in the threads that are asked for. */

typedef unsigned long size_t;
typedef long ssize_t;

extern void *__libc_malloc(size_t);
extern void *__libc_realloc(void *, size_t);
extern long syscall(long, ...);
extern char *getenv(const char *);
extern int *__errno_location(void);
extern void *dlsym(void *, const char *);
extern unsigned long pthread_self(void);

enum { READ = 0, WRITE = 1, EIO = 5, EAGAIN = 11, ENOMEM = 12, ALWAYS = -1 };

#define NEXT ((void *)-1L)

static long growth, window_line, failing_read, read_error, failing_write, write_error, most_read, most_written, tell, failing_thread, failing_entropy, in_others;
static const char *window_mark;
static unsigned long first_thread;

static long growths, is_open, lines, reads, writes, threads;

static long number(const char *name) {
    const char *text = getenv(name);
    long value = 0, sign = 1;
    if (!text)
        return 0;
    if (*text == '-') {
        sign = -1;
        text++;
    }
    for (; *text; text++)
        value = 10 * value + (*text - '0');
    return sign * value;
}

__attribute__((constructor)) static void begin(void) {
    growth = number("FAILING_GROWTH");
    window_line = number("FAILING_LINE");
    window_mark = getenv("FAILING_MARK");
    failing_read = number("FAILING_READ");
    read_error = number("FAILING_READ_ERROR");
    failing_write = number("FAILING_WRITE");
    write_error = number("FAILING_WRITE_ERROR");
    most_read = number("FAILING_READS_MOST");
    most_written = number("FAILING_WRITES_MOST");
    tell = number("FAILING_TELL");
    failing_thread = number("FAILING_THREAD");
    failing_entropy = number("FAILING_ENTROPY");
    in_others = number("FAILING_OTHERS");
    first_thread = pthread_self();
    __atomic_store_n(&is_open, !window_line && !window_mark, __ATOMIC_SEQ_CST);
}

static int is_refused(void) {
    if (!growth || !__atomic_load_n(&is_open, __ATOMIC_SEQ_CST))
        return 0;
    if (in_others && pthread_self() == first_thread)
        return 0;
    if (__atomic_add_fetch(&growths, 1, __ATOMIC_SEQ_CST) != growth)
        return 0;
    syscall(WRITE, tell, "refused\n", 8L);
    *__errno_location() = ENOMEM;
    return 1;
}

void *malloc(size_t size) { return is_refused() ? 0 : __libc_malloc(size); }

void *realloc(void *block, size_t size) { return is_refused() ? 0 : __libc_realloc(block, size); }

/* The bytes of a line at most, so that no line is read before the one before it is answered. */
static ssize_t read_line(char *to, size_t most) {
    size_t count = 0;
    while (count < most) {
        ssize_t got = syscall(READ, 0L, to + count, 1L);
        if (got < 0 && !count)
            return got;
        if (got <= 0)
            break;
        if (to[count++] == '\n') {
            lines++;
            break;
        }
    }
    return count;
}

ssize_t read(int from, void *to, size_t most) {
    if (from != 0)
        return syscall(READ, (long)from, to, most);
    if (++reads == failing_read || failing_read == ALWAYS) {
        *__errno_location() = read_error ? read_error : EIO;
        return -1;
    }
    if (window_line) {
        __atomic_store_n(&is_open, 0, __ATOMIC_SEQ_CST);
        ssize_t got = read_line(to, most);
        __atomic_store_n(&is_open, lines == window_line && got > 0, __ATOMIC_SEQ_CST);
        return got;
    }
    return syscall(READ, 0L, to, most_read && most > (size_t)most_read ? (size_t)most_read : most);
}

/* Whether a text is a mark: one of these signs, a space, the name of the call and a newline. */
static int is_mark(char sign, const char *text, size_t length) {
    const char *name = window_mark;
    size_t at = 2;
    if (length < 3 || text[0] != sign || text[1] != ' ')
        return 0;
    while (at < length && *name && text[at] == *name)
        at++, name++;
    return !*name && at + 1 == length && text[at] == '\n';
}

ssize_t write(int to, const void *from, size_t length) {
    if (to != 1)
        return syscall(WRITE, (long)to, from, length);
    if (++writes == failing_write || (failing_write == ALWAYS)) {
        *__errno_location() = write_error ? write_error : EIO;
        return -1;
    }
    if (window_mark && is_mark('<', from, length))
        __atomic_store_n(&is_open, 0, __ATOMIC_SEQ_CST);
    ssize_t done = syscall(WRITE, 1L, from, most_written && length > (size_t)most_written ? (size_t)most_written : length);
    if (window_mark && is_mark('>', from, length))
        __atomic_store_n(&is_open, 1, __ATOMIC_SEQ_CST);
    return done;
}

int getentropy(void *to, size_t length) {
    if (failing_entropy) {
        *__errno_location() = EIO;
        return -1;
    }
    return ((int (*)(void *, size_t))dlsym(NEXT, "getentropy"))(to, length);
}

int pthread_create(void *thread, const void *attributes, void *(*start)(void *), void *argument) {
    typedef int create(void *, const void *, void *(*)(void *), void *);
    if (__atomic_add_fetch(&threads, 1, __ATOMIC_SEQ_CST) == failing_thread || failing_thread == ALWAYS)
        return EAGAIN;
    return ((create *)dlsym(NEXT, "pthread_create"))(thread, attributes, start, argument);
}
