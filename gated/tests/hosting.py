"""gated as a process, and what a client asks it."""

import base64
import http.client
import importlib.util
import json
import os
import re
import shutil
import signal
import socket
import subprocess
import sys
import tempfile
import time
import unittest

from gate import Differs, same

HERE = os.path.dirname(os.path.abspath(__file__))
ROOT = os.path.dirname(os.path.dirname(HERE))
GATED = os.path.join(ROOT, "gated", "bin", "gated")
SYSTEM_PYTHON = "/usr/bin/python3"
# where `make lib` puts the library
BUILT = os.path.join(ROOT, "crates", "gate_c", "out", "library", "lib", "libgate_c.so.0")
# the library that is the gate, in gated's own process; without one the gate is the program as a child
LIBRARY = None
# what gated says of it
IN_PROCESS = "the library in this process"
# how long an answer, a start and an end may take: more, if the machine has other work
SECONDS = 120
# a journal is synced before each answer, which takes long on a disk that others write to; what is tested here is not the disk
MEMORY = "/dev/shm"
if os.access(MEMORY, os.W_OK) and "TMPDIR" not in os.environ:
    tempfile.tempdir = MEMORY


class RpcFailed(Exception):
    """An error of the gate or of gated."""

    def __init__(self, status, error):
        super().__init__("%s %s" % (status, error))
        self.status, self.error = status, error


def library_in(folder):
    """The library in a folder that `make lib` filled, or tools/unproved."""
    path = os.path.join(os.path.abspath(folder), "lib", "libgate_c.so.0")
    if not os.path.isfile(path):
        sys.exit("%s is not there: make lib builds it, and tools/unproved --library without its proofs" % path)
    return path


def compiled(source, folder, *words):
    """A library that stands for the gate's, from a source of tests/hosts."""
    compiler = shutil.which("cc") or shutil.which("gcc") or shutil.which("clang")
    if compiler is None:
        raise unittest.SkipTest("no compiler for C is on this machine")
    path = os.path.join(folder, "libgate_c.so.0")
    words = ["-std=c11", "-shared", "-fPIC", "-I", os.path.join(ROOT, "lib"), *words, "-o", path, os.path.join(ROOT, "tests", "hosts", source)]
    subprocess.run([compiler, *words], check=True)
    return path


def library_of(gate, folder):
    """The library that is there, or else one that asks the program."""
    built = LIBRARY or os.path.exists(BUILT) and BUILT
    return built or compiled("program_library.c", folder, "-DPROGRAM=%s" % json.dumps(gate.program))


def environment_of(**variables):
    """What gated runs under: this Python, or the system's own if this one lacks what gated needs; and the library."""
    python = sys.executable if importlib.util.find_spec("aiohttp") else SYSTEM_PYTHON
    return {**os.environ, "PYTHON": python, **({"GATE_LIBRARY": LIBRARY} if LIBRARY else {}), **variables}


def needs_a_child():
    if LIBRARY:
        raise unittest.SkipTest("the gate is the library, and no child")


def child_of(process):
    """The process that a gated runs as its gate."""
    needs_a_child()
    found = []
    # it was started by the thread that has the gate
    for task in os.listdir("/proc/%d/task" % process.pid):
        with open("/proc/%d/task/%s/children" % (process.pid, task)) as children:
            found += children.read().split()
    return int(found[0])


def memory(process):
    """The resident bytes of a process and of its children."""
    found = {}
    for name in os.listdir("/proc"):
        if name.isdecimal():
            try:
                with open("/proc/%s/status" % name) as lines:
                    told = dict(line.split(":", 1) for line in lines if ":" in line)
                found[int(name)] = int(told["PPid"]), int(told.get("VmRSS", "0 kB").split()[0]) * 1024
            except (OSError, ValueError):
                pass
    return found[process][1], sum(size for parent, size in found.values() if parent == process)


def free_port():
    with socket.socket() as it:
        it.bind(("127.0.0.1", 0))
        return it.getsockname()[1]


def until(what, holds, seconds=None):
    """Waits until something holds, and gives what it gives."""
    seconds = SECONDS if seconds is None else seconds
    end = time.monotonic() + seconds
    while True:
        found = holds()
        if found:
            return found
        if time.monotonic() > end:
            raise Differs("waited %d seconds, and still not: %s" % (seconds, what))
        time.sleep(0.05)


class Gated:
    """A gated beside a node, whose files lie in a folder."""

    def __init__(self, gate, folder, node_url, node_cookie, *words):
        self.program, self.folder = gate.program, folder
        self.port, self.metrics_port = free_port(), free_port()
        self.cookie, self.journal = os.path.join(folder, "gated.cookie"), os.path.join(folder, "journal")
        self.words = [
            "--node", node_url, "--cookie", node_cookie, "--listen", "127.0.0.1:%d" % self.port, "--rpccookiefile", self.cookie,
            "--journal", self.journal, "--metrics", "127.0.0.1:%d" % self.metrics_port, "--gate", self.program,
            *([] if LIBRARY else ["--child"]), "--shadow", "--check", "0.5", "--poll", "0.1", *words,
        ]  # fmt: skip
        self.log = os.path.join(folder, "gated.log")
        self.process = None
        # words before those of Python, as `prlimit --nofile=300`
        self.before = []

    def __enter__(self):
        self.start()
        return self

    def __exit__(self, *failed):
        self.end()
        if failed[0] is not None and os.path.exists(self.log):
            print("the last lines of gated's log:\n%s" % "".join(self.lines()[-30:]), file=sys.stderr)

    def start(self, **variables):
        with open(self.log, "a") as log:
            self.process = subprocess.Popen([*self.before, GATED, *self.words], env=environment_of(**variables), stdin=subprocess.DEVNULL, stdout=log, stderr=log)
        try:
            until("gated has opened the gate", self.is_open)
        except BaseException:
            self.process.kill()
            self.process.wait()
            raise
        if LIBRARY:
            same("the gate", self.kinds()[-1], IN_PROCESS)

    def takes_the_library(self):
        """It is started without a child."""
        self.words = [word for word in self.words if word != "--child"]

    def kinds(self):
        """What each gated so far has said of its gate."""
        return re.findall(r" gated \S+ beside \S+: ([^,\n]+),", "".join(self.lines()))

    def is_open(self):
        if self.process.poll() is not None:
            raise Differs("gated ended with status %d: %s" % (self.process.returncode, "".join(self.lines()[-5:])))
        try:
            return self.rpc("getmempoolinfo")
        except (OSError, RpcFailed, http.client.HTTPException):
            return None

    def end(self, number=signal.SIGTERM):
        """Ends it by a signal, and gives its status."""
        if self.process is None:
            return None
        self.process.send_signal(number)
        try:
            status = self.process.wait(SECONDS)
        except subprocess.TimeoutExpired:
            self.process.kill()
            raise Differs("gated doesn't end: it had to be killed") from None
        finally:
            self.process.wait()
            self.process = None
        return status

    def lines(self):
        with open(self.log) as lines:
            return list(lines)

    # questions

    def authorization(self):
        with open(self.cookie, "rb") as file:
            return "Basic " + base64.b64encode(file.read()).decode()

    def post(self, body, authorization=None, headers=(), connection=None):
        """The status, the headers and the text of an answer."""
        own = connection or http.client.HTTPConnection("127.0.0.1", self.port, timeout=SECONDS)
        try:
            given = {"Authorization": self.authorization() if authorization is None else authorization, "Content-Type": "application/json"}
            own.request("POST", "/", body, {**given, **dict(headers)})
            answer = own.getresponse()
            return answer.status, answer.headers, answer.read()
        finally:
            if connection is None:
                own.close()

    def raw(self, value, **more):
        """The status and the text of the answer to a value."""
        status, _, text = self.post(json.dumps(value), **more)
        return status, text.decode()

    def rpc(self, method, *params, **named):
        status, text = self.raw({"method": method, "params": named or list(params), "id": 1})
        if not text.startswith("{"):
            raise RpcFailed(status, text)
        told = json.loads(text)
        if told["error"] is not None:
            raise RpcFailed(status, told["error"])
        return told["result"]

    def listing(self):
        """The txids of the gate's pool; nothing while it is not open."""
        try:
            return set(self.rpc("getrawmempool"))
        except RpcFailed:
            return None

    def page(self, path):
        connection = http.client.HTTPConnection("127.0.0.1", self.metrics_port, timeout=SECONDS)
        try:
            connection.request("GET", path)
            return connection.getresponse().read().decode()
        finally:
            connection.close()

    def metric(self, name):
        """The number of a counter or a gauge, with its labels as they are printed; 0 if it isn't there."""
        found = re.search(r"^%s (\S+)$" % re.escape(name), self.page("/metrics"), re.MULTILINE)
        return float(found[1]) if found else 0.0

    def differences(self):
        """What differs so far, by rule, known or not."""
        found = {}
        for labels, count in re.findall(r"^gate_differences_total\{(.*)\} (\S+)$", self.page("/metrics"), re.MULTILINE):
            rule = re.search(r'rule="([^"]+)"', labels)[1]
            found[rule] = found.get(rule, 0) + int(float(count))
        return found

    def audit(self, seconds=600):
        """What `gated audit` says, and its status."""
        words = [GATED, "audit", self.journal, "--gate", self.program]
        done = subprocess.run(words, env=environment_of(), capture_output=True, text=True, timeout=seconds, check=False)
        return done.stdout.splitlines(), done.returncode

    def is_legal(self, segments):
        """The journal has so many segments (None for any number), and each is legal and whole; gives their entries."""
        lines, status = self.audit()
        found = [re.fullmatch(r"gate-\d{6}\.journal legal (\d+)", it) for it in lines]
        same("status of the audit of %s" % lines, status, 0)
        same("segments of %s" % lines, len(found), segments or len(found))
        same("lines of the audit", [line for line, it in zip(lines, found) if not it], [])
        return [int(it[1]) for it in found]
