#!/usr/bin/env python3
"""Refuses a program one allocation after the other, and looks at what each such run wrote.

Usage: bench/refuse_memory.py PROGRAM INPUT WORD..   (the input goes to standard input; the words are the program's)

A small library in front of the C library (built by cc in a temporary folder) makes the N-th allocation answer that there is
no memory, for N = 1, 2, .. until a run asks for fewer. Such a run has to end with status 5 and the last line for it, with a
prefix of the whole output and of the whole report before that line, or to do without: an allocation of the C library's own
may be one that it needs not. The last line counts both. The status is 1 where a run did anything else.
"""

import os
import subprocess
import sys
import tempfile

LIBRARY = r"""
#define _GNU_SOURCE
#include <dlfcn.h>
#include <errno.h>
#include <stdlib.h>
#include <unistd.h>

static long left = -1;
static int started;

/* whether this allocation is the one that is refused; that it came to it is told on file descriptor 9 */
static int is_refused(void) {
  if (!started) {
    const char *number = getenv("REFUSED_ALLOCATION");
    left = number ? atol(number) : 0;
    started = 1;
  }
  if (left == 0 || --left != 0) return 0;
  if (write(9, "x", 1) != 1) _exit(99);
  errno = ENOMEM;
  return 1;
}

void *malloc(size_t size) {
  static void *(*next)(size_t);
  if (!next) next = (void *(*)(size_t))dlsym(RTLD_NEXT, "malloc");
  return is_refused() ? 0 : next(size);
}

void *realloc(void *at, size_t size) {
  static void *(*next)(void *, size_t);
  if (!next) next = (void *(*)(void *, size_t))dlsym(RTLD_NEXT, "realloc");
  return is_refused() ? 0 : next(at, size);
}

int posix_memalign(void **at, size_t alignment, size_t size) {
  static int (*next)(void **, size_t, size_t);
  if (!next) next = (int (*)(void **, size_t, size_t))dlsym(RTLD_NEXT, "posix_memalign");
  return is_refused() ? ENOMEM : next(at, alignment, size);
}

void *aligned_alloc(size_t alignment, size_t size) {
  static void *(*next)(size_t, size_t);
  if (!next) next = (void *(*)(size_t, size_t))dlsym(RTLD_NEXT, "aligned_alloc");
  return is_refused() ? 0 : next(alignment, size);
}
"""

LAST_LINE = b"osmpoly: out of memory\n"


def main():
    program, given, *words = sys.argv[1:]
    with open(given, "rb") as file:
        text = file.read()
    with tempfile.TemporaryDirectory() as folder:
        library = f"{folder}/refuse.so"
        with open(f"{folder}/refuse.c", "w", encoding="utf-8") as file:
            file.write(LIBRARY)
        subprocess.run(["cc", "-shared", "-fPIC", "-O1", "-o", library, f"{folder}/refuse.c", "-ldl"], check=True)

        def run(number):
            """Returns the run, and whether it came to that allocation."""
            told = os.open(f"{folder}/told", os.O_RDWR | os.O_CREAT | os.O_TRUNC)
            try:
                env = {**os.environ, "LD_PRELOAD": library, "REFUSED_ALLOCATION": str(number)}
                command = ["sh", "-c", 'exec 9>"$0"; exec "$@"', f"{folder}/told", "env", f"LD_PRELOAD={library}", program, *words]
                env.pop("LD_PRELOAD")
                ran = subprocess.run(command, input=text, capture_output=True, env=env, check=False)
                return ran, os.fstat(told).st_size > 0
            finally:
                os.close(told)

        whole, _ = run(0)
        ended = unbegun = without = 0
        for number in range(1, 1_000_000):
            ran, came = run(number)
            if not came:
                break
            is_front = whole.stdout.startswith(ran.stdout) and ran.stderr.endswith(LAST_LINE) and whole.stderr.startswith(ran.stderr[: -len(LAST_LINE)])
            if ran.returncode == 5 and is_front:
                ended += 1
            elif (ran.returncode, ran.stdout, ran.stderr) == (5, b"", b""):
                unbegun += 1
            elif (ran.returncode, ran.stdout, ran.stderr) == (whole.returncode, whole.stdout, whole.stderr):
                without += 1
            else:
                print(f"allocation {number}: status {ran.returncode}, report {ran.stderr[-200:]!r}")
                sys.exit(1)
    print(f"{ended + unbegun + without} allocations refused: {ended} runs ended for want of memory, {unbegun} never began, {without} did without")


if __name__ == "__main__":
    main()
