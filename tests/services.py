"""Services and runs that outlive what goes wrong around them, and limits of time that no noise extends.

- An `accept`, a receive or a send that fails once, as `strace` makes it fail, ends neither a service nor a run: the report is that of a run that
  nothing disturbs.
- Each act of a server is written to its contacts file and forced to the device before the reply that reports it is sent, as `strace` sees it.
- A contacts file that is removed while the server serves is reported at once, the whole file is there at the end, and the status is 1.
- The name of each recording of a relay is forced to the device directly after the file is made.
- `--endless` serves one connection after another until it is ended.
- A client that sends a byte at a time and no line, and a server that only reports under E0000, have as long as one that is silent.

`run` calls this; by itself: tests/services.py
"""

import re
import socket
import sys
import threading
import time

from common import CONTACTS, PROGRAM, SECONDS, begun, called, dme, ended, listening, must, run_words, serving, whole
from killed import part

UNTIMELY = "dme: connection failed\nnothing that was due came from the {} for 1 second\n"


def trace(*options):
    """The words of `strace` before those of a `dme`."""
    return "strace", "-f", "-o", "calls", *options


def failing_calls(folder):
    server, port = serving(folder)
    report = called(folder, *run_words(port))
    must(report[0] == 0 and ended(server)[0] == 0, "undisturbed", report)
    for fault, said in (
        ("accept4:error=ECONNABORTED:when=1", "dme: a connection cannot be taken\n"),
        ("accept4:error=EMFILE:when=1", "dme: a connection cannot be taken\n"),
        ("accept4:error=EINTR:when=1", ""),
        ("recvfrom:error=EINTR:when=3+4", ""),
        ("sendto:error=EINTR:when=3+4", ""),
    ):
        server, port = serving(folder, before=trace("-e", f"inject={fault}"))
        must(called(folder, *run_words(port)) == report, "another report", fault)
        status, _, error = ended(server)
        must((status, error) == (0, said), "the service", fault, status, error)
        must("INJECTED" in (folder / "calls").read_text(), "nothing was disturbed", fault)
    for fault in ("recvfrom:error=EINTR:when=3+4", "sendto:error=EINTR:when=3+4"):
        server, port = serving(folder)
        run = ended(begun(folder, *trace("-e", f"inject={fault}"), str(PROGRAM), *run_words(port)))
        must(run == report, "another report of the run", fault, run)
        must("INJECTED" in (folder / "calls").read_text(), "nothing was disturbed", fault)
        ended(server)


def forced_acts(folder):
    server, port = serving(folder, "--contacts", "contacts", before=trace("-y", "-e", "trace=write,fdatasync,sendto"))
    must(called(folder, *run_words(port))[0] == 0 and ended(server)[0] == 0, "run")
    calls = re.findall(r"(?m)^\d+ +(\w+)\(\d+<([^>]*)>", (folder / "calls").read_text())
    named = [(call, file.endswith("/contacts")) for call, file in calls]
    writes = [at for at, it in enumerate(named) if it == ("write", True)]
    must(len(writes) > 100, "acts", len(writes))
    for at in writes:
        must(named[at + 1] == ("fdatasync", True), "an act is not forced before anything else", calls[at : at + 3])


def removed_contacts(folder):
    server, port = serving(folder, "--contacts", "contacts")
    with socket.create_connection(("127.0.0.1", port), SECONDS) as stream:
        stream.settimeout(SECONDS)
        for tag, command in (("00001", "StartSession()"), ("00002", "Home()"), ("00003", "IsHomed()"), ("00004", "IsHomed()")):
            stream.sendall(f"{tag} {command}\r\n".encode())
            came = b""
            while f"{tag} %\r\n".encode() not in came:
                came += stream.recv(4096)
            if tag == "00002":
                (folder / "contacts").unlink()
    must(ended(server) == (1, "", "dme: cannot write contacts: removed or replaced\n"), "service")
    must((folder / "contacts").read_text() == CONTACTS + "1 HOMED\n1 HOMEDIS 1\n1 HOMEDIS 1\n", "the whole file at the end")


def forced_names(folder):
    server, port = serving(folder)
    (folder / "bytes").mkdir()
    words = ("--listen", "PORT", "--host", "127.0.0.1", "--port", str(port), "--told", "told", "--record-bytes", "bytes", "--connections", "1")
    relay, own = listening(folder, "watch", *words, before=trace("-y", "-e", "trace=openat,fsync"))
    must(called(folder, *run_words(own))[0] == 0 and ended(relay)[0] == 0 and ended(server)[0] == 0, "run")
    calls = (folder / "calls").read_text().split("\n")
    for name in ("1.up", "1.down", "1.order"):
        at = next(at for at, it in enumerate(calls) if f'"bytes/{name}", ' in it and "O_EXCL" in it)
        must(re.search(r" fsync\(\d+<[^>]*/bytes>\) += 0", calls[at + 2]), "its name is not forced to the device", name, calls[at : at + 3])


def endless(folder):
    server, port = serving(folder, "--endless")
    for _ in range(3):
        must(called(folder, *run_words(port))[0] == 0, "run")
    must(server.poll() is None, "it has ended")
    server.terminate()
    ended(server)


def trickle(stream, text, stop):
    """Sends a text again and again, a byte at a time, as long as the other end takes it."""
    try:
        while not stop.is_set():
            for byte in text:
                stream.sendall(bytes([byte]))
                time.sleep(0.05)
    except OSError:
        pass


def noise(folder):
    """How long ends wait that only noise comes to."""
    stop = threading.Event()
    server, port = serving(folder, "--timeout", "1")
    with socket.create_connection(("127.0.0.1", port), SECONDS) as stream:
        threading.Thread(target=trickle, args=(stream, b"x", stop), daemon=True).start()
        status, out, error = ended(server)
    stop.set()
    must((status, out, error) == (1, "", UNTIMELY.format("client")), "half a line", status, error)
    for text in (b"E0000 ! Error(1, 1, \"\", \"busy\")\r\n", b"00001"):
        stop = threading.Event()
        with socket.create_server(("127.0.0.1", 0)) as listener:
            run = dme(folder, *run_words(listener.getsockname()[1], "--timeout", "1"))
            stream, _ = listener.accept()
            threading.Thread(target=trickle, args=(stream, text, stop), daemon=True).start()
            status, _, error = ended(run)
        stop.set()
        stream.close()
        must(status == 1 and UNTIMELY.format("server") in error, "noise", text, status, error)


def check_all():
    checks = (failing_calls, forced_acts, forced_names, removed_contacts, endless, noise)
    for check in checks:
        with part() as folder:
            check(folder)
    return f"{len(checks)} checks"


def check_services():
    return whole("services that are disturbed", check_all)


if __name__ == "__main__":
    sys.exit(1 if check_services()[1] else 0)
