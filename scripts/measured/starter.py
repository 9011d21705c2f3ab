"""Runs commands for `running`: each line of its input is one, and the answer is a line that says what it cost.

It is a process of its own since a command's peak begins with that of the process that starts it, and this one stays small.
"""
import json
import os
import resource
import subprocess
import sys


def limit(memory, seconds):
    """Gives the command so many bytes and processor seconds at most, where these are not 0."""
    resource.setrlimit(resource.RLIMIT_CORE, (0, 0))
    if memory:
        resource.setrlimit(resource.RLIMIT_AS, (memory, memory))
    if seconds:
        resource.setrlimit(resource.RLIMIT_CPU, (seconds, seconds))


def last_bytes(stream):
    """The end of what a stream gives."""
    kept = b""
    while True:
        piece = os.read(stream, 1 << 16)
        if not piece:
            return kept.decode("utf-8", "replace")
        kept = (kept + piece)[-200:]


def cost(words, memory, seconds):
    """The status of a command (below 0 the signal that ended it), its processor seconds, its peak bytes, and the end of what it wrote."""
    started = subprocess.Popen(words, stdout=subprocess.PIPE, stderr=subprocess.DEVNULL, preexec_fn=lambda: limit(memory, seconds))
    text = last_bytes(started.stdout.fileno())
    _, status, usage = os.wait4(started.pid, 0)
    started.returncode = -os.WTERMSIG(status) if os.WIFSIGNALED(status) else os.WEXITSTATUS(status)
    started.stdout.close()
    return started.returncode, usage.ru_utime + usage.ru_stime, usage.ru_maxrss << 10, text


if __name__ == "__main__":
    for line in sys.stdin:
        print(json.dumps(cost(*json.loads(line))), flush=True)
