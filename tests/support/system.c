/* Reports the calls of a program to the system, and makes one of them fail, for tests of tests/program/: the dynamic
 * linker loads this library before the C library (LD_PRELOAD).
 *
 * These environment variables say what it does:
 *
 * - CALLS is a number of a file to which a line is written for each call of `open`, `read`, `write` and `getentropy`:
 *   `open NUMBER NAME`, `read NUMBER COUNT`, `write NUMBER COUNT`, where a COUNT of -1 is a failure, and `random BYTES`.
 * - FAILING is `read`, `write` or `open`, and AT the number of the call of this name that fails, from 1. ERROR is the
 *   error of this call. All later calls succeed.
 * - MOST is the maximum number of bytes that a read returns or a write takes.
 * - RANDOM has the bytes that `getentropy` returns, as hexadecimal digits.
 * - STATUS is a number of a file to which /proc/self/status is copied when the program ends. Its line VmHWM has the peak
 *   memory of the program alone, unlike what the system reports to its parent.
 *
 * The functions of the C library are declared here, so that no header is needed.
 */

typedef unsigned long size;

int __open(const char *name, int flags, int mode);
long __read(int file, void *bytes, size count);
long __write(int file, const void *bytes, size count);
int *__errno_location(void);
char *getenv(const char *name);
size strtoul(const char *text, char **end, int base);
size strlen(const char *text);
int strcmp(const char *one, const char *other);
long syscall(long number, ...);

enum { GETRANDOM = 318, LONGEST_LINE = 5000 };

static int calls = -1;
static const char *failing = "";
static size at;
static int error;
static size most;
static const char *chosen;

__attribute__((constructor)) static void read_environment(void) {
    calls = getenv("CALLS") ? strtoul(getenv("CALLS"), 0, 10) : -1;
    failing = getenv("FAILING") ? getenv("FAILING") : "";
    at = getenv("AT") ? strtoul(getenv("AT"), 0, 10) : 0;
    error = getenv("ERROR") ? strtoul(getenv("ERROR"), 0, 10) : 0;
    most = getenv("MOST") ? strtoul(getenv("MOST"), 0, 10) : ~0ul;
    chosen = getenv("RANDOM");
}

static char *add_text(char *end, const char *text) {
    while (*text) {
        *end++ = *text++;
    }
    return end;
}

static char *add_number(char *end, long number) {
    if (number < 0) {
        return add_text(end, "-1");
    }
    if (number > 9) {
        end = add_number(end, number / 10);
    }
    *end++ = '0' + number % 10;
    return end;
}

static void report(const char *call, long number, const char *name, long count) {
    char line[LONGEST_LINE];
    char *end = line;
    if (calls < 0) {
        return;
    }
    end = add_text(add_number(add_text(add_text(end, call), " "), number), " ");
    end = name ? add_text(end, strlen(name) < LONGEST_LINE - 50 ? name : "a long name") : add_number(end, count);
    *end++ = '\n';
    __write(calls, line, end - line);
}

/* Returns 1 if the current call is the one that fails. */
static int fails(const char *call) {
    if (strcmp(call, failing) != 0 || at == 0 || --at != 0) {
        return 0;
    }
    *__errno_location() = error;
    return 1;
}

int open(const char *name, int flags, int mode) {
    int file = fails("open") ? -1 : __open(name, flags, mode);
    report("open", file, name, 0);
    return file;
}

long read(int file, void *bytes, size count) {
    long done = fails("read") ? -1 : __read(file, bytes, count < most ? count : most);
    report("read", file, 0, done);
    return done;
}

long write(int file, const void *bytes, size count) {
    long done = fails("write") ? -1 : __write(file, bytes, count < most ? count : most);
    report("write", file, 0, done);
    return done;
}

static int value_of(char digit) {
    return digit <= '9' ? digit - '0' : digit - 'a' + 10;
}

int getentropy(void *bytes, size count) {
    unsigned char *to = bytes;
    char digits[LONGEST_LINE];
    size length = chosen ? strlen(chosen) / 2 : 0;
    size i;
    if (length == 0 && syscall(GETRANDOM, bytes, count, 0) != (long)count) {
        return -1;
    }
    for (i = 0; i < count && i < LONGEST_LINE / 2 - 1; i++) {
        if (length != 0) {
            to[i] = 16 * value_of(chosen[2 * (i % length)]) + value_of(chosen[2 * (i % length) + 1]);
        }
        digits[2 * i] = "0123456789abcdef"[to[i] / 16];
        digits[2 * i + 1] = "0123456789abcdef"[to[i] % 16];
    }
    digits[2 * i] = 0;
    report("random", count, digits, 0);
    return 0;
}

__attribute__((destructor)) static void copy_status(void) {
    char text[LONGEST_LINE];
    const char *to = getenv("STATUS");
    int file = to ? __open("/proc/self/status", 0, 0) : -1;
    long count = file < 0 ? 0 : __read(file, text, sizeof text);
    if (count > 0) {
        __write(strtoul(to, 0, 10), text, count);
    }
}
