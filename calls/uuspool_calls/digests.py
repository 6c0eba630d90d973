"""SHA-256. Its library takes long to load, and few commands need it, so it is loaded late."""
from .values import TYPE_CHECKING

if TYPE_CHECKING:
    from hashlib import _Hash


def sha256(data: bytes = b"") -> "_Hash":
    """The digest of these bytes, to which more may be added."""
    import hashlib

    return hashlib.sha256(data)
