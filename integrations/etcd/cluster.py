#!/usr/bin/env python3
"""A cluster of three etcd members on loopback, with its data in a folder of its own, until it is interrupted.

    cluster.py      prints the members' endpoints, with commas between them, and waits

The data is removed at the end. Needs etcd (etcd-server of Debian).
"""

import atexit
import os
import shutil
import signal
import socket
import subprocess
import sys
import tempfile
import time
import urllib.request
from typing import Any, List, Optional

_opener = urllib.request.build_opener(urllib.request.ProxyHandler({}))


def free_ports(count: int) -> List[int]:
    sockets = [socket.socket() for _ in range(count)]
    try:
        for each in sockets:
            each.bind(("127.0.0.1", 0))
        return [each.getsockname()[1] for each in sockets]
    finally:
        for each in sockets:
            each.close()


class Cluster:
    """Three members. They are stopped where a `with` ends, and at the latest where the program does."""

    def __init__(self, size: int = 3) -> None:
        self._folder = tempfile.mkdtemp(prefix="etcd.")
        ports = free_ports(2 * size)
        self.endpoints = [f"http://127.0.0.1:{port}" for port in ports[:size]]
        self._peers = [f"http://127.0.0.1:{port}" for port in ports[size:]]
        self._members: List[Optional["subprocess.Popen[bytes]"]] = [None] * size
        atexit.register(self.close)

    def __enter__(self) -> "Cluster":
        try:
            for i in range(len(self._members)):
                self.start(i)
            self.wait()
        except BaseException:
            self.close()
            raise
        return self

    def __exit__(self, *_: Any) -> None:
        self.close()

    def start(self, i: int) -> None:
        environment = {name: value for name, value in os.environ.items() if not name.startswith("ETCD_")}
        with open(os.path.join(self._folder, f"log{i}"), "ab") as log:
            self._members[i] = subprocess.Popen(
                ["etcd", "--name", f"member{i}", "--data-dir", os.path.join(self._folder, f"member{i}"),
                 "--listen-client-urls", self.endpoints[i], "--advertise-client-urls", self.endpoints[i],
                 "--listen-peer-urls", self._peers[i], "--initial-advertise-peer-urls", self._peers[i],
                 "--initial-cluster", ",".join(f"member{n}={peer}" for n, peer in enumerate(self._peers)),
                 "--initial-cluster-token", os.path.basename(self._folder), "--initial-cluster-state", "new",
                 "--logger", "zap", "--log-level", "error"],
                stdin=subprocess.DEVNULL, stdout=log, stderr=log, env=environment)

    def kill(self, i: int) -> None:
        """Ends a member at once, without a word to the others."""
        member = self._members[i]
        if member is not None:
            member.kill()
            member.wait()
            self._members[i] = None

    def wait(self, seconds: float = 30.0) -> None:
        """Waits until each member that runs says that it is healthy."""
        until = time.monotonic() + seconds
        for i, member in enumerate(self._members):
            while member is not None and not self._is_healthy(i):
                if member.poll() is not None or time.monotonic() > until:
                    with open(os.path.join(self._folder, f"log{i}"), "r", encoding="utf-8", errors="replace") as log:
                        raise RuntimeError(f"member {i} of the cluster doesn't answer:\n{log.read()}")
                time.sleep(0.05)

    def _is_healthy(self, i: int) -> bool:
        try:
            with _opener.open(self.endpoints[i] + "/health", timeout=5) as answer:
                return b'"true"' in answer.read()
        except OSError:
            return False

    def close(self) -> None:
        for member in self._members:
            if member is not None:
                member.kill()
        for member in self._members:
            if member is not None:
                member.wait()
        self._members = [None] * len(self._members)
        shutil.rmtree(self._folder, ignore_errors=True)


def end_on_signals() -> None:
    """Makes the signals that end a process raise KeyboardInterrupt, so that what was started is stopped."""
    def end(number: int, _: Any) -> None:
        raise KeyboardInterrupt

    for number in (signal.SIGINT, signal.SIGTERM, signal.SIGHUP):
        signal.signal(number, end)


if __name__ == "__main__":
    end_on_signals()
    try:
        with Cluster() as cluster:
            print(",".join(cluster.endpoints), flush=True)
            while True:
                signal.pause()
    except KeyboardInterrupt:
        sys.exit(1)
