"""setuptools as the build backend, also if there is no network.

pip builds apart from what is installed, and takes setuptools from its index. Here that of the interpreter serves, as Debian's
python3-setuptools. Before 70.1 setuptools makes wheels only with the package wheel, so that has to be there too. Where one of them is
not there, or is too old, pip is asked for them as usual.
"""
import re
import site
import sys
from importlib import metadata

SITES = [*sys.path, *site.getsitepackages(), *site.getsitepackages([sys.base_prefix])]
# Where each may be, and the least version. Any interpreter can use Debian's wheel; its setuptools only serves Debian's own.
NEEDED = {"setuptools": ((61,), SITES), "wheel": ((0,), [*SITES, "/usr/lib/python3/dist-packages"])}
MAKES_WHEELS = (70, 1)


def found(name):
    """The folder and the version of a package, or (None, (0,))."""
    least, folders = NEEDED[name]
    for folder in folders:
        for it in metadata.distributions(name=name, path=[folder]):
            version = tuple(map(int, re.findall(r"\d+", it.version)[:2]))
            if version >= least:
                return folder, version
    return None, (0,)


(SETUPTOOLS, VERSION), (WHEEL, _) = map(found, NEEDED)
IS_ENOUGH = SETUPTOOLS is not None and (WHEEL is not None or VERSION >= MAKES_WHEELS)
if IS_ENOUGH:
    sys.path.insert(0, SETUPTOOLS)
    if VERSION < MAKES_WHEELS:
        sys.path.append(WHEEL)


def get_requires_for_build_wheel(config_settings=None):
    return [] if IS_ENOUGH else ["setuptools>=61", "wheel"]


get_requires_for_build_sdist = get_requires_for_build_editable = get_requires_for_build_wheel


def __getattr__(hook):
    from setuptools import build_meta

    return getattr(build_meta, hook)
