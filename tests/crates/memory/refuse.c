/* Fails one allocation of a program, for tests/program/test_memory.py: the dynamic linker loads this library before the
 * C library (LD_PRELOAD).
 *
 * The toolchain's heap makes each allocation with one call of `malloc` or `realloc`, and these functions precede those of
 * the C library. The environment variable REFUSED is the number of the allocation that fails, from 1. If MARKED is also
 * set, only the allocations between the program's first write to standard output and its second one are numbered. When
 * the allocation fails, the line `refused` is written to standard error, so that a run in which none failed can be
 * distinguished from a run that conceals the failure.
 *
 * If EACH is set to `K/N`, each allocation whose number has the remainder K when divided by N fails, in a copy of the
 * process that is made for it. Its status is written to standard error after its own lines. The process itself waits
 * for the copy, and goes on as if nothing had failed. A copy releases no memory, which would only take time.
 *
 * The functions of the C library are declared here, so that no header is needed.
 */

typedef unsigned long size;

void *__libc_malloc(size bytes);
void *__libc_realloc(void *block, size bytes);
void __libc_free(void *block);
long __write(int file, const void *bytes, size count);
char *getenv(const char *name);
size strtoul(const char *text, char **end, int base);
int fork(void);
int waitpid(int process, int *status, int options);

enum { STANDARD_OUTPUT = 1, STANDARD_ERROR = 2 };

static const char REFUSAL[] = "refused\n";

static size refused;
static size remainder;
static size divisor;
static int is_marked;
static int is_copy;
static size requests;
static size writes;

__attribute__((constructor)) static void read_environment(void) {
    const char *number = getenv("REFUSED");
    const char *each = getenv("EACH");
    char *rest;
    refused = number ? strtoul(number, 0, 10) : 0;
    if (each) {
        remainder = strtoul(each, &rest, 10);
        divisor = strtoul(rest + 1, 0, 10);
    }
    is_marked = getenv("MARKED") != 0;
}

/* Copies the process, and returns 1 in the copy. */
static int is_in_copy(void) {
    char line[] = "status 000\n";
    int status = 0;
    int process = fork();
    if (process == 0) {
        is_copy = 1;
        return 1;
    }
    waitpid(process, &status, 0);
    /* A signal ends the process with a status above 255. */
    status = status & 127 ? 256 + (status & 127) : status >> 8 & 255;
    line[7] += status / 100;
    line[8] += status / 10 % 10;
    line[9] += status % 10;
    __write(STANDARD_ERROR, line, sizeof line - 1);
    return 0;
}

/* Returns 1 if the current allocation is one that fails. */
static int is_refused(void) {
    if (is_copy || (refused == 0 && divisor == 0) || (is_marked && writes != 1)) {
        return 0;
    }
    requests += 1;
    if (divisor == 0 ? requests != refused : requests % divisor != remainder || !is_in_copy()) {
        return 0;
    }
    __write(STANDARD_ERROR, REFUSAL, sizeof REFUSAL - 1);
    return 1;
}

void *malloc(size bytes) {
    return is_refused() ? 0 : __libc_malloc(bytes);
}

void *realloc(void *block, size bytes) {
    return is_refused() ? 0 : __libc_realloc(block, bytes);
}

void free(void *block) {
    if (!is_copy) {
        __libc_free(block);
    }
}

long write(int file, const void *bytes, size count) {
    if (file == STANDARD_OUTPUT) {
        writes += 1;
    }
    return __write(file, bytes, count);
}
