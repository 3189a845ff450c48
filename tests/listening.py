"""Ports of 127.0.0.1: a free one, and one that a process listens on."""

import fcntl
import pathlib
import random
import socket
import tempfile
import time

LOWEST = 10_000
GIVEN = set()
LOCKS = (pathlib.Path(tempfile.gettempdir()) / "ports_of_dme_tests").open("a")


def is_given(port):
    """Whether this process, or another that tests, was given a port and has not ended; if not, this one has it from now on."""
    if port in GIVEN:
        return True
    try:
        fcntl.lockf(LOCKS, fcntl.LOCK_EX | fcntl.LOCK_NB, 1, port)
    except OSError:
        return True
    GIVEN.add(port)
    return False


def free_port():
    """A port that no socket has, nor had a minute ago, and that no other test was given: of two that listen on one port, the second would not
    notice that it is the first that answers. It is below those that the system gives to sockets by itself, so that none of them takes it before
    it is used."""
    above = int(pathlib.Path("/proc/sys/net/ipv4/ip_local_port_range").read_text().split()[0])
    while True:
        port = random.randrange(LOWEST, above)
        if is_given(port):
            continue
        with socket.socket() as tried:
            try:
                tried.bind(("127.0.0.1", port))
                return port
            except OSError:
                continue


def is_listened_on(port):
    lines = [it.split() for it in pathlib.Path("/proc/net/tcp").read_text().splitlines()[1:]]
    return any(it[3] == "0A" and int(it[1].split(":")[1], 16) == port for it in lines)


def wait_for_listener(port, has_ended, seconds):
    """Waits until a process listens, or the one that should has ended."""
    end = time.monotonic() + seconds
    while not is_listened_on(port) and not has_ended() and time.monotonic() < end:
        time.sleep(0.005)
