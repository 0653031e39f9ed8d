"""Runs a program of which one call of the system fails, by `failing_calls.c`."""
import os
import shutil
import socket
import struct
import subprocess
import threading
import time

KINDS = ["alloc", "read", "write", "open", "short", "look", "accept", "receive", "send", "start"]
HERE = os.path.dirname(os.path.abspath(__file__))
SECONDS = 300
HANGS = -1


def has_compiler():
    return shutil.which("cc") is not None


class Ended:
    """How a run ended: status (-1 where it did not in five minutes), output and errors, what its connections were answered, and the
    path that the failing call worked on."""

    def __init__(self, status, out, err, answers=(), failed=""):
        self.status, self.out, self.err, self.answers, self.failed = status, out, err, list(answers), failed

    def is_same(self, other):
        return (self.status, self.out, self.answers) == (other.status, other.out, other.answers)


class FailingCalls:
    def __init__(self, program, work):
        self.program, self.work, self.shim = program, work, f"{work}/failing_calls.so"
        subprocess.run(["cc", "-shared", "-fPIC", "-O2", "-o", self.shim, f"{HERE}/failing_calls.c", "-ldl"], check=True)

    def environment(self, fail):
        found = {**os.environ, "LD_PRELOAD": self.shim, "ASAN_OPTIONS": "verify_asan_link_order=0:detect_leaks=0"}
        found |= {"COUNTS": f"{self.work}/counts", "FAILED": f"{self.work}/failed"}
        if fail:
            found["FAIL"] = f"{fail[0]} {fail[1]}"
        if os.path.exists(found["FAILED"]):
            os.remove(found["FAILED"])
        return found

    def counts(self):
        """How many calls of each kind the last run made."""
        with open(f"{self.work}/counts", "rb") as file:
            return dict(zip(KINDS, struct.unpack(f"{len(KINDS)}q", file.read())))

    def failed_path(self):
        try:
            with open(f"{self.work}/failed", encoding="utf-8") as file:
                return file.read()
        except FileNotFoundError:
            return ""

    def run(self, words, text="", fail=None):
        """The command on this input, of which the call with this kind and number fails."""
        try:
            done = subprocess.run([self.program, *words], input=text.encode(), capture_output=True, timeout=SECONDS,
                                  env=self.environment(fail), check=False)
        except subprocess.TimeoutExpired:
            return Ended(HANGS, "", "")
        return Ended(done.returncode, done.stdout.decode(), done.stderr.decode(), failed=self.failed_path())

    def serve(self, folder, count, requests, fail=None):
        """`serve` of so many connections, which send these bytes one after another; each is waited for before the next one."""
        port = free_port()
        process = subprocess.Popen([self.program, "serve", str(port), str(count), "--dir", folder], stdin=subprocess.DEVNULL,
                                   stdout=subprocess.PIPE, stderr=subprocess.PIPE, env=self.environment(fail))
        answers = []
        asking = threading.Thread(target=lambda: answers.extend(ask(port, process, it) for it in requests), daemon=True)
        asking.start()
        try:
            out, err = process.communicate(timeout=SECONDS)
        except subprocess.TimeoutExpired:
            process.kill()
            return Ended(HANGS, "", "", answers)
        asking.join()
        return Ended(process.returncode, out.decode(), err.decode(), answers, self.failed_path())


def free_port():
    with socket.socket() as it:
        it.bind(("127.0.0.1", 0))
        return it.getsockname()[1]


def ask(port, process, sent):
    """What a connection that sends this is answered: as much of it as came."""
    got = b""
    while process.poll() is None:
        try:
            with socket.create_connection(("127.0.0.1", port), timeout=30) as it:
                it.sendall(sent)
                it.shutdown(socket.SHUT_WR)
                while part := it.recv(65536):
                    got += part
                return got
        except ConnectionRefusedError:
            time.sleep(0.02)
        except OSError:
            return got
    return got


def write_folder(at, files):
    for path, text in files.items():
        os.makedirs(os.path.dirname(f"{at}/{path}"), exist_ok=True)
        with open(f"{at}/{path}", "w", encoding="utf-8") as file:
            file.write(text)
