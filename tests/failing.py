"""Runs of the program in which memory is refused, or a read or a write fails.

The library failing.c is compiled by the toolchain's own clang, once, and loaded before the program.
"""

import atexit
import functools
import os
import shutil
import subprocess
import tempfile
from collections import namedtuple

from gate import SECONDS, Differs, as_bytes

HERE = os.path.dirname(os.path.abspath(__file__))
EIO, EINTR, ENOSPC = 5, 4, 28
ALWAYS = -1

# what a run came to: whether a growth was refused, and how many bytes of its input were read
Failed = namedtuple("Failed", "status stdout stderr refused read")


@functools.lru_cache(None)
def library():
    """The path of the library."""
    guide = subprocess.run(["rt", "doc"], stdout=subprocess.PIPE, check=True, text=True).stdout.strip()
    toolchain = os.path.join(os.path.dirname(guide), "toolchain")
    folder = tempfile.mkdtemp()
    atexit.register(shutil.rmtree, folder, True)
    made = os.path.join(folder, "failing.so")
    words = [os.path.join(toolchain, "bin", "clang"), "--target=x86_64-unknown-linux-gnu", "--sysroot=" + toolchain, "--no-default-config"]
    words += ["-O1", "-Wall", "-Wextra", "-Werror", "-shared", "-fPIC", "-nostdlib", "-o", made, os.path.join(HERE, "failing.c")]
    subprocess.run(words, check=True)
    return made


def failing(program, words, text, **how):
    """Runs a program to its end, on a file of this text.

    growth=K refuses the Kth growth of memory (a call of malloc or realloc) that is counted: with line=N those from when
    line N of the input was read up to the next read, with mark=NAME those between the lines `> NAME` and `< NAME` that the
    program writes, else all; with others=1 none of the first thread. With line=N a read gives a line at most. read=K fails
    the Kth read of the input, and write=K the Kth write of the output, once, with the error read_error or write_error; ALWAYS
    fails each of them. reads_most=N and writes_most=N are the most bytes that a read gives and a write takes. thread=K keeps
    the Kth thread from being made, ALWAYS each of them; entropy=1 gives no random numbers.
    """
    with tempfile.TemporaryFile() as file, tempfile.TemporaryFile() as told:
        file.write(as_bytes(text))
        file.seek(0)
        given = dict(os.environ, LD_PRELOAD=library(), FAILING_TELL=str(told.fileno()))
        given.update({"FAILING_" + name.upper(): str(value) for name, value in how.items()})
        done = subprocess.run([program] + words.split(), stdin=file, capture_output=True, env=given, pass_fds=[told.fileno()], timeout=SECONDS)
        refused = os.fstat(told.fileno()).st_size > 0
        return Failed(done.returncode, done.stdout, done.stderr, refused, os.lseek(file.fileno(), 0, os.SEEK_CUR))


def each_growth(program, words, text, **how):
    """Runs with the first growth refused, the second, and so on, until one meets no refusal, which is not given."""
    for growth in range(1, 1000000):
        done = failing(program, words, text, growth=growth, **how)
        if not done.refused:
            return
        yield growth, done
    raise Differs("there is no end of growths")
