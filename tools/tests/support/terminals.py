"""A terminal on which tests see what a script shows."""

import os
import pty


def shown_on_terminal(start):
    """What a terminal shows that is the standard error of a call. `start` begins the call, and is given the terminal."""
    ours, theirs = pty.openpty()
    call = start(theirs)
    call.wait(timeout=60)
    os.close(theirs)
    return call.returncode, read_all(ours).decode()


def read_all(terminal):
    """All that was written to a terminal, up to its end. The terminal is closed."""
    shown = b""
    try:
        while piece := os.read(terminal, 4096):
            shown += piece
    except OSError:
        pass  # (Linux tells the end of a terminal so)
    os.close(terminal)
    return shown
