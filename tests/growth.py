#!/usr/bin/env python3
"""Refuses each request for memory in turn, and wants what comes with ample memory, or that memory was refused.

usage: tests/growth.py [--over CRATES] [CRATE..]

CRATE is a crate of TESTS, or else each of them is tried. Its built tests are those that the gate or `rt test` left in the folder
CRATES/CRATE/out, where CRATES is crates/ of the repository if it isn't given. A test of the table accepts these two answers alone.
It is run over a `malloc` that refuses the Nth request, for N = 1, 2, .. until a run makes fewer requests. Without a C compiler, as
`cc`, nothing is run.
"""
import argparse
import os
import shutil
import subprocess
import sys
import tempfile

ROOT = os.path.dirname(os.path.dirname(os.path.abspath(__file__)))
TESTS = [
    ("bt_command_tests", "guests::memory_is_refused_or_all_are_served"),
    ("bt_command_tests", "swarms::memory_is_refused_or_all_is_fetched"),
]
# A run makes far fewer requests.
MOST = 10_000

MALLOC = """
#include <fcntl.h>
#include <stdlib.h>
#include <unistd.h>

extern void *__libc_malloc(size_t);
extern void *__libc_realloc(void *, size_t);

static long requests;

static int is_refused(void) {
    const char *refused = getenv("REFUSED");
    requests += 1;
    return refused && requests == atol(refused);
}

void *malloc(size_t size) { return is_refused() ? 0 : __libc_malloc(size); }

void *realloc(void *old, size_t size) { return is_refused() ? 0 : __libc_realloc(old, size); }

/* leaves a file where the request that was to be refused was made */
__attribute__((destructor)) static void end(void) {
    const char *refused = getenv("REFUSED"), *made = getenv("MADE");
    if (refused && made && requests >= atol(refused)) close(open(made, O_CREAT | O_WRONLY, 0600));
}
"""


def refuse_each(library, made, built, test):
    """Refuses each request of a test, and returns how many these were; None where an answer is another one."""
    for n in range(1, MOST):
        words = {"LD_PRELOAD": library, "REFUSED": str(n), "MADE": made}
        run = subprocess.run([built, test], env=words, capture_output=True, timeout=60)
        if run.returncode != 0:
            print(f"growth: {test}: another answer where request {n} is refused:\n{run.stdout.decode()}{run.stderr.decode()}")
            return None
        if not os.path.exists(made):
            return n - 1
        os.remove(made)
    print(f"growth: {test}: a run makes {MOST} requests")
    return None


def main():
    compiler = shutil.which("cc")
    if compiler is None:
        print("growth: not run, since there is no cc")
        return 0
    parser = argparse.ArgumentParser(description=__doc__, formatter_class=argparse.RawDescriptionHelpFormatter)
    parser.add_argument("--over", default=os.path.join(ROOT, "crates"), metavar="CRATES")
    parser.add_argument("names", nargs="*", metavar="CRATE")
    given = parser.parse_args()
    built = {crate: os.path.join(given.over, crate, "out", crate + "_tests") for crate, _ in TESTS}
    wanted = given.names or built
    with tempfile.TemporaryDirectory() as work:
        library, made = os.path.join(work, "refusing.so"), os.path.join(work, "made")
        subprocess.run([compiler, "-shared", "-fPIC", "-x", "c", "-o", library, "-"], input=MALLOC.encode(), check=True)
        refused = [refuse_each(library, made, built[crate], test) for crate, test in TESTS if crate in wanted]
    if None in refused:
        return 1
    print(f"growth: ok, {sum(refused)} requests refused")
    return 0


if __name__ == "__main__":
    sys.exit(main())
