"""Servers of Redis for the tests, the page's tour and the benchmark: each in a folder of its own, on a socket there or on 127.0.0.1, ended by its process."""
import os
import pathlib
import re
import signal
import socket
import subprocess
import tempfile
import time

import redis

TOP = pathlib.Path(__file__).resolve().parent.parent.parent
MODULE = os.environ.get("LIVEVEC_REDIS", str(TOP / "build/livevec_redis.so"))
# how often a server is asked whether it is there, and how long it is waited for between
TRIES, PAUSE = 600, 0.05


def free_port():
    """A port that nothing has, nor the one 10,000 above, which a cluster's node also takes."""
    for port in range(21000 + os.getpid() % 500 * 20, 54000, 7):
        with socket.socket() as first, socket.socket() as second:
            try:
                first.bind(("127.0.0.1", port))
                second.bind(("127.0.0.1", port + 10000))
                return port
            except OSError:
                continue
    raise OSError("no port is free")


class Server:
    """A server with the module. `port` 0 is for a socket in its folder alone."""

    def __init__(self, *options, port=0, module=MODULE, room=None, **environment):
        self.kept = tempfile.TemporaryDirectory(prefix="livevec-redis-") if room is None else None
        self.room, self.port, self.module, self.options = pathlib.Path(room or self.kept.name), port, module, options
        self.environment, self.process = environment, None
        self.path = str(self.room / "socket")

    def command(self):
        words = ["redis-server", "--port", str(self.port), "--bind", "127.0.0.1", "--unixsocket", self.path, "--dir", str(self.room), "--save", ""]
        words += ["--enable-debug-command", "yes", *self.options]
        return words + (["--loadmodule", self.module] if self.module else [])

    def begin(self):
        """Starts the server's process, which may also refuse to start."""
        with open(self.room / "log", "a") as log:
            self.process = subprocess.Popen(self.command(), stdin=subprocess.DEVNULL, stdout=log, stderr=log, env={**os.environ, **self.environment})
        return self

    def start(self):
        self.begin()
        for _ in range(TRIES):
            if self.process.poll() is not None:
                raise OSError(f"redis-server has ended:\n{self.said()}")
            try:
                self.client().ping()
                return self
            except (redis.ConnectionError, redis.BusyLoadingError):
                time.sleep(PAUSE)
        raise OSError(f"redis-server doesn't answer:\n{self.said()}")

    def client(self, **more):
        return redis.Redis(unix_socket_path=self.path, **more)

    def said(self):
        return (self.room / "log").read_text(errors="replace")

    def end(self, how=signal.SIGTERM):
        """Ends the server; its folder stays until `close`."""
        if self.process and self.process.poll() is None:
            self.process.send_signal(how)
            try:
                self.process.wait(60)
            except subprocess.TimeoutExpired:
                self.process.kill()
                self.process.wait()

    def restart(self, how=signal.SIGTERM):
        self.end(how)
        return self.start()

    def close(self):
        self.end(signal.SIGKILL)
        self.said_last = self.said()
        if self.kept:
            self.kept.cleanup()

    def __enter__(self):
        return self.start()

    def __exit__(self, *_):
        self.close()


def asked(client, *words):
    """A command's reply, or the first word of its error behind a `!`; of an `ERR` all words."""
    try:
        return shown(client.execute_command(*words))
    except redis.ResponseError as error:
        return shown(error)


def shown(reply):
    """A reply with errors as words and bytes as text where they are some."""
    if isinstance(reply, redis.ResponseError):
        text = str(reply)
        return "!" + (text.split()[0] if re.match(r"(LV\d+|[A-Z]+) ", text) else text)
    if isinstance(reply, list):
        return [shown(it) for it in reply]
    if isinstance(reply, bytes):
        try:
            return reply.decode()
        except UnicodeDecodeError:
            return reply
    return reply


def waited_for(condition, what):
    """Waits until a condition holds, for a bounded time."""
    for _ in range(TRIES):
        if condition():
            return
        time.sleep(PAUSE)
    raise OSError(f"{what} never came")
