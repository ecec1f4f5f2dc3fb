"""What a new file takes from the one that it replaces: the owner, the group, the permissions and the extended attributes."""
from __future__ import annotations

import contextlib
import errno
import os

_LIST = "system.posix_acl_access"


def refuse_unwritable(path: str) -> None:
    """Raises PermissionError if there is a file that may not be written: it is not replaced by its name."""
    if os.path.exists(path) and not os.access(path, os.W_OK, effective_ids=os.access in os.supports_effective_ids):
        raise PermissionError(errno.EACCES, os.strerror(errno.EACCES), path)


def take_permissions(file: int, path: str, about: os.stat_result) -> None:
    """Gives a new file the owner, the group, the permissions and the attributes of another one, as far as that is allowed. With another owner or
    group it is never set-user-ID or set-group-ID. With another group, that group and others may do what both could: each of the two now has
    users who belonged to the other. Raises OSError if an attribute of users would be lost."""
    for owner in (about.st_uid, -1):
        with contextlib.suppress(OSError):
            os.fchown(file, owner, about.st_gid)
            break
    now, mode = os.fstat(file), about.st_mode & 0o7777
    has_group = now.st_gid == about.st_gid
    if not has_group:
        both = mode & mode >> 3 & 0o7
        mode = mode & 0o1700 | both << 3 | both
    if not has_group or now.st_uid != about.st_uid:
        mode &= 0o1777
    os.fchmod(file, mode & _take_attributes(file, path, has_group))


def _take_attributes(file: int, path: str, has_group: bool) -> int:
    """Gives a new file the extended attributes of another one: those of users, its label of SELinux, and its access control list, or none. Returns
    the permissions that it may then have: only those of the owner if the list cannot be given, or the new file has another group. The bits
    of the group are the mask of the list, and others may be those whom it excludes."""
    if not hasattr(os, "listxattr"):  # (Python has these calls for Linux only)
        return 0o7777
    with contextlib.suppress(OSError):
        os.removexattr(file, _LIST)  # (one that the folder gave it)
    try:
        names = os.listxattr(path)
    except OSError:
        return 0o7777
    allowed = 0o7777
    for name in names:
        if name == _LIST or name.startswith("user.") or name == "security.selinux":
            try:
                os.setxattr(file, name, os.getxattr(path, name))
                is_taken = True
            except OSError:
                if name.startswith("user."):
                    raise
                is_taken = False
            if name == _LIST and not (is_taken and has_group):
                allowed = 0o7700
    return allowed
