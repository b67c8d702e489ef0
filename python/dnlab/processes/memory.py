"""How commands and their workers allocate memory."""
import ctypes
import sys

# Parameters of mallopt(3), with the largest values that glibc takes for them.
_TRIM_THRESHOLD, _MMAP_THRESHOLD = (-1, 2**31 - 1), (-3, 1 << 25)


def keep_freed() -> None:
    """Keeps freed memory in this process, because the next columns of a table need it again. Returning
    megabytes to the system and getting them back as zeroed pages takes longer than computing with them."""
    mallopt = getattr(ctypes.CDLL(None), "mallopt", None) if sys.platform == "linux" else None
    if mallopt is not None:
        mallopt(*_TRIM_THRESHOLD)
        mallopt(*_MMAP_THRESHOLD)
