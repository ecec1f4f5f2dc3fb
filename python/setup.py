"""Builds the extension module: assembly of the proved code, and the C that hands it to Python. pyproject.toml has the rest."""
import os
import shutil
import subprocess
import sys
import sysconfig

from setuptools import Extension, setup
from setuptools.command.build_ext import build_ext
from setuptools.command.build_py import build_py
from setuptools.errors import FileError, PlatformError

try:
    from setuptools.command.bdist_wheel import bdist_wheel
except ImportError:  # before setuptools 70.1
    from wheel.bdist_wheel import bdist_wheel

# (on x86-64 the calls that validate, count and recode are there twice, and processor.c chooses)
ASSEMBLY = {
    "linux-x86_64": ["noddychest-x86_64.s", "noddychest-x86_64-v3.s"],
    "linux-aarch64": ["noddychest-aarch64.s"],
    "win-amd64": ["noddychest-x86_64-windows.s", "noddychest-x86_64-windows-v3.s"],
}
ALL_ASSEMBLY = sum(ASSEMBLY.values(), [])
# The contents of the folder library/. In the repository they are next to this folder, and each build copies them; a source archive has them.
LIBRARY = ["c/noddychest.h", "c/processor.c", *(f"generated/{it}" for it in ALL_ASSEMBLY)]

# One wheel serves CPython 3.11 and all that follow. Older ones, whose stable ABI has no buffers, and those without the lock, that
# have no stable ABI, get one each.
STABLE = sys.version_info >= (3, 11) and not sysconfig.get_config_var("Py_GIL_DISABLED")

# The tag of before PEP 600, which pip 20.2 takes, as it comes with CPython 3.9.
OLD_TAGS = {"manylinux_2_17_x86_64": "manylinux2014_x86_64", "manylinux_2_17_aarch64": "manylinux2014_aarch64"}


def fill_library():
    here = os.path.dirname(os.path.abspath(__file__))
    os.makedirs(f"{here}/library", exist_ok=True)
    for it in LIBRARY:
        beside, copy = f"{here}/../{it}", f"{here}/library/{os.path.basename(it)}"
        if os.path.isfile(beside):
            shutil.copyfile(beside, copy)
        elif not os.path.isfile(copy):
            raise FileError(f"{it} is missing: it is part of the source archive, and of the repository beside python/")


# On x86-64 the option that keeps jumps off the ends of 32 bytes of code, as gcc or clang writes it. Some CPUs of Intel are
# slow at such jumps.
JUMPS = {"linux-x86_64": ["-Wa,-mbranches-within-32B-boundaries", "-mbranches-within-32B-boundaries"]}


class BuildLibrary(build_ext):
    def is_option(self, option):
        """Whether the compiler can assemble with it."""
        os.makedirs(self.build_temp, exist_ok=True)
        words = [*self.compiler.compiler_so, option, "-x", "assembler", "-c", "-o", f"{self.build_temp}/empty.o", os.devnull]
        return subprocess.run(words, capture_output=True, check=False).returncode == 0

    def build_extension(self, extension):
        if self.plat_name not in ASSEMBLY:
            raise PlatformError(f"noddychest is built for {' and '.join(ASSEMBLY)}, and this is {self.plat_name}")
        if self.compiler.compiler_type != "unix":
            raise PlatformError("the assembly is GNU's: for Windows python/wheel builds the package, on Linux, by mingw's compiler")
        extension.extra_compile_args += [it for it in JUMPS.get(self.plat_name, []) if self.is_option(it)][:1]
        if self.plat_name == "win-amd64":
            extension.libraries += ["python3"]  # (the source declares what it exports)
        else:
            extension.extra_link_args += ["-Wl,--version-script=src/exports.map"]
        self.compiler.src_extensions = [*self.compiler.src_extensions, ".s"]
        extension.sources += [f"library/{it}" for it in ASSEMBLY[self.plat_name]]
        super().build_extension(extension)

    def get_ext_filename(self, name):
        path = super().get_ext_filename(name)
        return f"{path.partition('.')[0]}.pyd" if self.plat_name == "win-amd64" else path


class BuildWithCodecs(build_py):
    """The package, and beside it a line that Python runs at its start. By that the codecs are found in a process that has not imported the
    package, as a worker; nothing is imported before one is asked for."""

    LINE = "noddychest-codecs.pth"

    def run(self):
        super().run()
        self.copy_file(f"src/{self.LINE}", os.path.join(self.build_lib, self.LINE))

    def get_outputs(self, *given, **named):
        return [*super().get_outputs(*given, **named), os.path.join(self.build_lib, self.LINE)]


class StableWheel(bdist_wheel):
    def finalize_options(self):
        self.py_limited_api = "cp311" if STABLE else False
        super().finalize_options()

    def get_tag(self):
        *others, platform = super().get_tag()
        return (*others, ".".join([platform, OLD_TAGS[platform]] if platform in OLD_TAGS else [platform]))


fill_library()
setup(
    ext_modules=[
        Extension(
            "noddychest._noddychest",
            sources=["src/_noddychest.c", "src/views.c", "src/lengths.c", "src/decoding.c", "src/maker.c", "src/parts.c", "library/processor.c"],
            depends=["src/views.h", "src/maker.h", "src/lengths.h", "src/exports.map", "library/noddychest.h", *(f"library/{it}" for it in ALL_ASSEMBLY)],
            include_dirs=["src", "library"],
            define_macros=[("Py_LIMITED_API", "0x030B0000")] if STABLE else [],
            extra_compile_args=["-O3"],
            py_limited_api=STABLE,
        )
    ],
    cmdclass={"build_ext": BuildLibrary, "build_py": BuildWithCodecs, "bdist_wheel": StableWheel},
)
