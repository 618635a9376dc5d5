"""Files that tools read: regular ones, of a length that fits in memory."""
import os
import stat

from office_tools import Fault

# No PO text that an office takes or gives is longer.
LONGEST = 1 << 28


def opened(path):
    """The descriptor of a regular file. What else there is, a pipe or a device say, may never end, or act by being opened."""
    try:
        if not stat.S_ISREG(os.stat(path).st_mode):
            raise Fault(f"{path}: no regular file")
        file = os.open(path, os.O_RDONLY | os.O_NONBLOCK | os.O_CLOEXEC)
    except (OSError, ValueError) as why:
        raise Fault(f"{path}: {reason_of(why)}") from None
    if not stat.S_ISREG(os.fstat(file).st_mode):
        os.close(file)
        raise Fault(f"{path}: no regular file")
    return file


def reason_of(why):
    return getattr(why, "strerror", None) or str(why)


def bytes_of(path):
    """All bytes of a regular file."""
    try:
        with open(opened(path), "rb") as it:
            data = it.read(LONGEST + 1)
    except OSError as why:
        raise Fault(f"{path}: {reason_of(why)}") from None
    if len(data) > LONGEST:
        raise Fault(f"{path}: longer than {LONGEST:,} bytes")
    return data


def write(path, data):
    """Puts these bytes into a file, in place of what is there. They are on the disk when this returns; a stop before leaves what was there."""
    beside = path.with_name(f"{path.name}.new")
    try:
        path.parent.mkdir(parents=True, exist_ok=True)
        with open(beside, "wb") as it:
            it.write(data)
            it.flush()
            os.fsync(it.fileno())
        beside.replace(path)
    except OSError as why:
        raise Fault(f"{path}: {reason_of(why)}") from None
