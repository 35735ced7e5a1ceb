"""The command serve."""
from __future__ import annotations

import contextlib
import os
import shutil
import signal
import subprocess
import tempfile
import time
import urllib.parse
from collections.abc import Iterator
from pathlib import Path

import click

from .. import nbd
from ..geometry import Geometry
from ..problems import Problem
from ..volume import Volume
from . import options
from .output import remark, say, say_json

# How long nbdkit may take until it listens, and how often it is looked after, in seconds.
MOST_WAIT, LOOK = 30.0, 0.02
# The longest path that a unix socket can have.
LONGEST_SOCKET = 107


@click.command()
@options.image
@click.option("--write", is_flag=True, help="Let clients write. IMAGE is stored anew at each flush, and at the end.")
@click.option("--socket", type=options.FILE, metavar="SOCKET", help="The unix socket. It is made in a folder of its own otherwise.")
@click.option("--port", type=click.IntRange(1, 65535), metavar="PORT", help="Serve on a port of TCP, to this computer alone.")
@click.option("--run", "command", metavar="COMMAND", help="Run a shell command with $uri, and end when it ends, with its status.")
@options.geometry
@options.as_json
def serve(image: Path, write: bool, socket: Path | None, port: int | None, command: str | None, geometry: Geometry | None, as_json: bool) -> int:
    """Serve an image as a block device, by nbdkit.

    Programs that speak NBD, such as nbdcopy, qemu and the Linux kernel, read the sectors of IMAGE as those of a flat
    file. Each sector is read and written by the driver, through the controller. One that can't be read is an
    input/output error. Ctrl-C ends this, with status 0.
    """
    if shutil.which("nbdkit") is None:
        raise Problem("nbdkit isn't installed. Debian has it: apt install nbdkit nbdkit-plugin-python")
    if socket is not None and port is not None:
        raise Problem("Name a socket or a port, not both.")
    Volume(image, geometry, write).close()
    with tempfile.TemporaryDirectory(prefix="telwyddus-") as room:
        failed, listens = Path(room, "failed"), Path(room, "listens")
        words, uri = place(Path(room), socket, port)
        words += ["--exit-with-parent", "--foreground", "--pidfile", str(listens)] + ([] if write else ["--readonly"])
        words += ["--run", command] if command else []
        words += ["python", nbd.__file__, f"image={image.resolve()}", f"failed={failed}", f"write={int(write)}"]
        words += [f"geometry={geometry.numbers}"] if geometry else []
        with running(words) as (server, is_stopped):
            if wait_until(server, listens, is_stopped) and command is None:
                tell(uri, write, as_json)
            status = server.wait()
            wait_for_store(listens)
        if socket is not None:
            socket.unlink(missing_ok=True)
        if failed.exists():
            raise Problem(failed.read_text(encoding="utf-8", errors="replace"))
    return 0 if is_stopped else status


def place(room: Path, socket: Path | None, port: int | None) -> tuple[list[str], str]:
    """Where nbdkit listens: its first words, and the URI for clients."""
    if port is not None:
        return ["nbdkit", "--ipaddr", "127.0.0.1", "--port", str(port)], f"nbd://127.0.0.1:{port}"
    path = (socket or room / "disk.sock").absolute()
    if path.exists() or path.is_symlink():
        raise Problem(f"{path} is there already. Name another socket, or remove it if nobody listens there.")
    if len(str(path).encode()) > LONGEST_SOCKET:
        raise Problem(f"{path} is too long for a unix socket. Name one with at most {LONGEST_SOCKET} bytes.")
    return ["nbdkit", "--unix", str(path)], f"nbd+unix:///?socket={urllib.parse.quote(str(path))}"


@contextlib.contextmanager
def running(words: list[str]) -> Iterator[tuple["subprocess.Popen[bytes]", list[int]]]:
    """Runs nbdkit. Ctrl-C and SIGTERM end it in its own good way, so that it stores what was written. With a command,
    nbdkit is two processes, and each has to be told."""
    stopped: list[int] = []
    server = subprocess.Popen(words, stdin=subprocess.DEVNULL, start_new_session=True)

    def stop(number: int, frame: object) -> None:
        stopped.append(number)
        terminate(server)

    before = {number: signal.signal(number, stop) for number in (signal.SIGINT, signal.SIGTERM)}
    try:
        yield server, stopped
    finally:
        if server.poll() is None:
            terminate(server)
            server.wait()
        for number, handler in before.items():
            signal.signal(number, handler)


def terminate(server: "subprocess.Popen[bytes]") -> None:
    """Ends nbdkit, and the command that it runs."""
    with contextlib.suppress(ProcessLookupError):
        os.killpg(server.pid, signal.SIGTERM)


def wait_for_store(listens: Path) -> None:
    """Waits for the process that serves, whose number nbdkit has written down. With a command, it is another one than
    nbdkit's first, and may end later: it stores what was written."""
    begin = time.monotonic()
    while listens.exists() and is_running(int(listens.read_text() or "0")):
        if time.monotonic() - begin > MOST_WAIT:
            raise Problem("nbdkit doesn't end, so what was written may not be stored.")
        time.sleep(LOOK)


def is_running(number: int) -> bool:
    """Whether a process of this number runs. One that has ended may still be in the system's list."""
    try:
        return Path(f"/proc/{number}/stat").read_text().rpartition(")")[2].split()[0] not in ("Z", "X")
    except OSError:
        return False


def wait_until(server: "subprocess.Popen[bytes]", listens: Path, is_stopped: list[int]) -> bool:
    """Waits until nbdkit listens. Says whether it does; it may have ended, or been stopped before."""
    begin = time.monotonic()
    while server.poll() is None and not listens.exists():
        if time.monotonic() - begin > MOST_WAIT:
            raise Problem("nbdkit doesn't begin to listen. What it printed may say why.")
        time.sleep(LOOK)
    if server.poll() and not is_stopped:
        raise Problem("nbdkit ended with an error, which it printed above.")
    return listens.exists()


def tell(uri: str, is_writable: bool, as_json: bool) -> None:
    """Says where clients find the image."""
    if as_json:
        say_json({"uri": uri, "writable": is_writable})
        return
    say(uri)
    remark("Ctrl-C ends this." + (" What clients wrote is stored then." if is_writable else ""))
