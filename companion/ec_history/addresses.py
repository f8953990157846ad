"""Where `ec-history keep --listen` is reached: a Unix socket, or a loopback port."""

from __future__ import annotations

import os
import socket
import stat
from typing import Tuple

from .errors import HistoryError

_WAITING = 100
"""Clients that may wait for their connection to be taken."""


def opened(address: str) -> Tuple[socket.socket, str]:
    """A socket that listens at an address, and where that is, in full.

    Raises HistoryError where the address can't be used.
    """
    host, _, port = address.rpartition(":")
    try:
        if port.isdigit() and "/" not in address:
            return _port(address, host, int(port))
        return _path(os.path.abspath(address))
    except (OSError, OverflowError) as fault:
        raise HistoryError(f"can't listen at {address}: {fault}") from None


def _port(address: str, host: str, port: int) -> Tuple[socket.socket, str]:
    if host not in ("", "localhost", "127.0.0.1", "[::1]"):
        raise HistoryError(
            f"{address}: a port of the loopback is served and no other: name the port "
            "alone, or a path for a Unix socket"
        )
    if host == "[::1]":
        place, family = "::1", socket.AF_INET6
    else:
        host, place, family = "127.0.0.1", "127.0.0.1", socket.AF_INET
    listening = socket.create_server((place, port), family=family, backlog=_WAITING)
    return listening, f"{host}:{listening.getsockname()[1]}"


def _path(path: str) -> Tuple[socket.socket, str]:
    _free_path(path)
    listening = socket.socket(socket.AF_UNIX)
    mask = os.umask(0o177)  # for its user alone
    try:
        listening.bind(path)
        listening.listen(_WAITING)
    except OSError:
        listening.close()
        raise
    finally:
        os.umask(mask)
    return listening, path


def _free_path(path: str) -> None:
    """Takes away a socket at which nobody listens any more."""
    try:
        if not stat.S_ISSOCK(os.stat(path).st_mode):
            raise HistoryError(f"can't listen at {path}: a file stands there")
    except FileNotFoundError:
        return
    with socket.socket(socket.AF_UNIX) as trial:
        try:
            trial.connect(path)
        except OSError:
            os.unlink(path)
            return
    raise HistoryError(f"can't listen at {path}: another process does")
