#!/bin/sh
# tests/memory.sh [SCRIPT..]
# Refuses each request for memory that the program makes over a script once, one in each run; without words over each
# example. A run has to end with status 1, a front of the whole output, and nothing in the binlog before the output is
# whole; or, where the request was a hint to take more room, with the status, the output and the binlog that it has with
# all the memory. Prints for each script how many requests there were, and how many runs ended in each way.

top=$(cd "$(dirname "$0")/.." && pwd) || exit 1
work=$(mktemp -d) || exit 1
trap 'rm -rf "$work"' EXIT

"$top/clone" --prove >/dev/null || exit 1

# Stands before the C library's requests for memory. REFUSED is the number of the one that fails, from 1
# on, and 0 for none; COUNTED is the file that gets their number at the end. Those of the loader, before
# the program is started, aren't counted.
cat >"$work/refuse.c" <<'C'
#include <errno.h>
#include <fcntl.h>
#include <stdio.h>
#include <stdlib.h>
#include <unistd.h>

extern void *__libc_malloc(size_t size);
extern void *__libc_calloc(size_t count, size_t size);
extern void *__libc_realloc(void *old, size_t size);
extern void *__libc_memalign(size_t alignment, size_t size);

static unsigned long requests;
static unsigned long refused;
static int started;

static int is_refused(void) {
    if (!started || __atomic_add_fetch(&requests, 1, __ATOMIC_SEQ_CST) != refused)
        return 0;
    errno = ENOMEM;
    return 1;
}

void *malloc(size_t size) { return is_refused() ? NULL : __libc_malloc(size); }

void *calloc(size_t count, size_t size) { return is_refused() ? NULL : __libc_calloc(count, size); }

void *realloc(void *old, size_t size) { return is_refused() ? NULL : __libc_realloc(old, size); }

void *memalign(size_t alignment, size_t size) {
    return is_refused() ? NULL : __libc_memalign(alignment, size);
}

void *aligned_alloc(size_t alignment, size_t size) { return memalign(alignment, size); }

int posix_memalign(void **into, size_t alignment, size_t size) {
    void *given = memalign(alignment, size);
    if (given == NULL)
        return ENOMEM;
    *into = given;
    return 0;
}

__attribute__((constructor)) static void start(void) {
    const char *number = getenv("REFUSED");
    refused = number == NULL ? 0 : strtoul(number, NULL, 10);
    started = 1;
}

__attribute__((destructor)) static void tell(void) {
    const char *path = getenv("COUNTED");
    char text[32];
    int file = path == NULL ? -1 : open(path, O_WRONLY | O_CREAT | O_TRUNC, 0600);
    started = 0;
    if (file < 0 || write(file, text, snprintf(text, sizeof text, "%lu\n", requests)) < 0)
        return;
    close(file);
}
C
gcc -O2 -Wall -shared -fPIC -fno-builtin -o "$work/refuse.so" "$work/refuse.c" || exit 1

[ $# -gt 0 ] || set -- "$top"/examples/*.steps
python3 - "$top/crates/clone_prog/out/clone_prog" "$work" "$@" <<'PYTHON'
import collections
import concurrent.futures
import os
import subprocess
import sys

SHOWN = 10


def run(program, work, script, refused, counted=None):
    """Runs a script with one refused request, or with none where the number is 0."""
    environment = {"LD_PRELOAD": os.path.join(work, "refuse.so"), "REFUSED": str(refused)}
    if counted is not None:
        environment["COUNTED"] = counted
    with open(script, "rb") as source:
        return subprocess.run([program, "steps"], stdin=source, capture_output=True, env=environment, timeout=60)


def whole_run(program, work, script):
    """The run in which nothing is refused, and the number of its requests."""
    counted = os.path.join(work, "counted")
    whole = run(program, work, script, 0, counted)
    if whole.returncode == 1:
        sys.exit(f"{script}: status 1 with all the memory")
    if not os.path.exists(counted):
        sys.exit(f"{program}: its requests for memory are not those of a C library that it loads")
    with open(counted) as number:
        return whole, int(number.read())


def is_right(ran, whole):
    """Whether a run with a refused request ended as it may."""
    if ran.returncode == whole.returncode:
        return (ran.stdout, ran.stderr) == (whole.stdout, whole.stderr)
    if ran.returncode != 1 or not whole.stdout.startswith(ran.stdout):
        return False
    return ran.stderr == b"" or (ran.stdout == whole.stdout and whole.stderr.startswith(ran.stderr))


def try_each(program, work, script):
    """Refuses each request of a script in turn, prints what came of it, and says whether all was right."""
    whole, requests = whole_run(program, work, script)
    name = os.path.basename(script)
    if name == "source":
        name = os.path.basename(os.path.dirname(os.path.abspath(script)))
    numbers = range(1, requests + 1)
    with concurrent.futures.ThreadPoolExecutor(os.cpu_count()) as pool:
        runs = list(pool.map(lambda number: run(program, work, script, number), numbers))
    ends = collections.Counter(ran.returncode for ran in runs)
    wrong = [number for number, ran in zip(numbers, runs) if not is_right(ran, whole)]
    print(f"{name:>48} {requests:>9} {ends[whole.returncode]:>9} {ends[1]:>9} {len(wrong):>6}")
    for number in wrong[:SHOWN]:
        ran = runs[number - 1]
        print(f"    request {number}: status {ran.returncode}, {len(ran.stdout)} bytes of output, {len(ran.stderr)} of the binlog")
    return not wrong


def main(program, work, *scripts):
    print(f"{'script':>48} {'requests':>9} {'whole':>9} {'status 1':>9} {'wrong':>6}")
    right = [try_each(program, work, script) for script in scripts]
    if not all(right):
        sys.exit(1)


main(*sys.argv[1:])
PYTHON
