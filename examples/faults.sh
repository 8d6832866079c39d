#!/usr/bin/env bash
# Has memory, reads and writes fail, and compares how the program ends with how it ends otherwise.
#
# Usage: examples/faults.sh PROGRAM
#
# A small library is compiled and loaded before the C library. It refuses allocations, and has reads of standard input
# and writes to standard output and standard error fail or move few bytes, each in turn. Then the program gets devices
# that fail: a full one, a directory, closed ones and a broken pipe. Last come the deepest texts of each kind, and some
# past the limits, in a stack of 512 KiB.
#
# The exit status has to be the one that README.md lists for the fault, and what is written the front of what is written
# without it. Prints each run that ends otherwise, and how many faults and texts were tried. Ends with 0 if all were
# right.
#
# Everything is made in a temporary folder. Where cc or python3 is missing, nothing is done. It takes a few minutes.
set -eu
program=${1:?usage: examples/faults.sh PROGRAM}
program=$(cd "$(dirname "$program")" && pwd)/$(basename "$program")
cd "$(dirname "$0")"

for tool in cc python3; do
  if ! command -v $tool > /dev/null; then
    echo "$tool is missing: no fault is tried"
    exit 0
  fi
done

folder=$(mktemp -d)
trap 'rm -rf "$folder"' EXIT
cat > "$folder/faults.c" << 'LIBRARY'
/* Faults, as the environment asks for them: FAULT_KIND is what fails (`memory`, `read` or `write`), FAULT_FIRST and
   FAULT_LAST are the numbers of the first and the last call that fails, from 1, and FAULT_ERROR is the number of the
   error. FAULT_STEP is how many bytes such a call moves at most. Each fault is a byte in the file FAULT_MARK, which is
   the number of an open one. */
#define _GNU_SOURCE
#include <errno.h>
#include <stdlib.h>
#include <string.h>
#include <sys/mman.h>
#include <sys/syscall.h>
#include <sys/uio.h>
#include <unistd.h>

void *__libc_malloc(size_t size);
void *__libc_calloc(size_t count, size_t size);
void *__libc_realloc(void *block, size_t size);
void *__libc_memalign(size_t alignment, size_t size);

enum kind { NONE, MEMORY, READ, WRITE };

static enum kind kind = NONE;
static long first, last, error, mark, calls;
static size_t step;

static long number(const char *name) {
    const char *text = getenv(name);
    return text ? atol(text) : 0;
}

__attribute__((constructor)) static void begin(void) {
    const char *name = getenv("FAULT_KIND");
    first = number("FAULT_FIRST");
    last = number("FAULT_LAST");
    error = number("FAULT_ERROR");
    mark = number("FAULT_MARK");
    step = (size_t)number("FAULT_STEP");
    if (name) kind = !strcmp(name, "memory") ? MEMORY : !strcmp(name, "read") ? READ : WRITE;
}

/* Counts a call, and says whether it fails. */
static int fails(enum kind of) {
    if (of != kind) return 0;
    calls++;
    if (calls < first || calls > last) return 0;
    syscall(SYS_write, mark, "x", 1);
    errno = (int)error;
    return 1;
}

/* How many of so many bytes a call moves at most. */
static size_t moved(enum kind of, size_t size) { return of == kind && step && size > step ? step : size; }

void *malloc(size_t size) { return fails(MEMORY) ? NULL : __libc_malloc(size); }

void *calloc(size_t count, size_t size) { return fails(MEMORY) ? NULL : __libc_calloc(count, size); }

void *realloc(void *block, size_t size) { return fails(MEMORY) ? NULL : __libc_realloc(block, size); }

void *memalign(size_t alignment, size_t size) { return fails(MEMORY) ? NULL : __libc_memalign(alignment, size); }

void *aligned_alloc(size_t alignment, size_t size) { return memalign(alignment, size); }

int posix_memalign(void **block, size_t alignment, size_t size) {
    void *found = memalign(alignment, size);
    if (!found) return ENOMEM;
    *block = found;
    return 0;
}

void *mmap(void *at, size_t size, int protection, int flags, int file, off_t offset) {
    if (fails(MEMORY)) return MAP_FAILED;
    return (void *)syscall(SYS_mmap, at, size, protection, flags, file, offset);
}

void *mmap64(void *at, size_t size, int protection, int flags, int file, off_t offset) {
    return mmap(at, size, protection, flags, file, offset);
}

ssize_t read(int file, void *room, size_t size) {
    if (file == 0) {
        if (fails(READ)) return -1;
        size = moved(READ, size);
    }
    return syscall(SYS_read, file, room, size);
}

ssize_t __read(int file, void *room, size_t size) { return read(file, room, size); }

ssize_t write(int file, const void *bytes, size_t size) {
    if (file == 1 || file == 2) {
        if (fails(WRITE)) return -1;
        size = moved(WRITE, size);
    }
    return syscall(SYS_write, file, bytes, size);
}

ssize_t __write(int file, const void *bytes, size_t size) { return write(file, bytes, size); }

/* The first part that is not empty is enough. */
static const struct iovec *part(const struct iovec *parts, int count) {
    while (count > 1 && !parts->iov_len) parts++, count--;
    return parts;
}

ssize_t readv(int file, const struct iovec *parts, int count) {
    if (count < 1) return syscall(SYS_readv, file, parts, count);
    return read(file, part(parts, count)->iov_base, part(parts, count)->iov_len);
}

ssize_t writev(int file, const struct iovec *parts, int count) {
    if (count < 1) return syscall(SYS_writev, file, parts, count);
    return write(file, part(parts, count)->iov_base, part(parts, count)->iov_len);
}
LIBRARY
cc -O1 -shared -fPIC -o "$folder/faults.so" "$folder/faults.c"
PYTHONDONTWRITEBYTECODE=1 python3 faults.py "$program" "$folder/faults.so" "$folder"
