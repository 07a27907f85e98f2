"""The socket that clients connect to."""

import contextlib
import os
import shutil
import socket
import stat

from .faults import Fault, as_text, refused

# a private folder's name begins so; the names of its socket before and after it listens
FOLDER, UNREADY, READY = "stmflash-line-", "unready", "socket"
ELSEWHERE = "TMPDIR names another folder"


def listen(path):
    """A socket that listens at this path. One that a killed program has left there is replaced."""
    if os.path.lexists(path):
        refuse_served(path)
        os.unlink(path)
    listener = socket.socket(socket.AF_UNIX, socket.SOCK_STREAM)
    before = os.umask(0o117)
    try:
        listener.bind(path)
    finally:
        os.umask(before)
    listener.listen()
    listener.setblocking(False)
    return listener


def refuse_served(path):
    """A fault unless a socket stands here that nobody listens at."""
    if not stat.S_ISSOCK(os.lstat(path).st_mode):
        raise Fault(f"{path}: something else stands there already; give --socket another name")
    if not is_left(path):
        raise Fault(f"{path}: another program listens there already; give --socket another name")


def is_left(path):
    """Whether nobody listens at a socket."""
    with socket.socket(socket.AF_UNIX, socket.SOCK_STREAM) as probe:
        probe.settimeout(1)
        try:
            probe.connect(path)
        except ConnectionRefusedError:
            return True
        except OSError:
            pass
    return False


@contextlib.contextmanager
def served(path, then="give --socket another name"):
    """A socket at this path while it is needed; and what to do where there can't be one."""
    try:
        listener = listen(path)
    except OSError as error:
        raise refused(path, error, then) from None
    try:
        yield path, listener
    finally:
        listener.close()
        with contextlib.suppress(OSError):
            os.unlink(path)


@contextlib.contextmanager
def served_privately():
    """A socket in a folder that only we may enter, while it is needed."""
    remove_left_folders()
    try:
        folder = os.path.join(temporary(), FOLDER + os.urandom(8).hex())
        os.mkdir(folder, 0o700)
    except OSError as error:
        raise refused(error.filename, error, ELSEWHERE) from None
    try:
        with served(os.path.join(folder, UNREADY), ELSEWHERE) as (unready, listener):
            ready = os.path.join(folder, READY)
            os.rename(unready, ready)
            yield ready, listener
    finally:
        shutil.rmtree(folder, ignore_errors=True)


def named(opened, name, socket_path):
    """The word for an image that is an open file: a link beside the socket, by the name that a journal is to tell."""
    folder = os.path.join(os.path.dirname(socket_path), os.urandom(8).hex())
    path = os.path.join(folder, as_text(os.path.basename(name)))
    os.mkdir(folder, 0o700)
    os.symlink(opened, path)
    return path + "@"


def temporary():
    """The folder of temporary files: the first of those that are usual which is there and can be written to."""
    named = (os.environ.get(name) for name in ("TMPDIR", "TEMP", "TMP"))
    for folder in (*named, "/tmp", "/var/tmp", "/usr/tmp"):
        if folder and os.path.isdir(folder) and os.access(folder, os.W_OK | os.X_OK):
            return os.path.abspath(folder)
    return os.getcwd()


def remove_left_folders():
    """Removes the folders of lines that were killed. One that begins just now has no socket of this name yet."""
    with contextlib.suppress(OSError):
        for place in os.scandir(temporary()):
            if place.name.startswith(FOLDER) and place.stat(follow_symlinks=False).st_uid == os.geteuid():
                if is_left(os.path.join(place.path, READY)):
                    shutil.rmtree(place.path, ignore_errors=True)
