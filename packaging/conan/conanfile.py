"""A recipe for Conan 2 that builds this clone: conan create packaging/conan"""
import os
import re

from conan import ConanFile
from conan.errors import ConanInvalidConfiguration
from conan.tools.cmake import CMake, CMakeToolchain, cmake_layout
from conan.tools.files import copy, load

PACKED = ["CMakeLists.txt", "LICENSE-*", "c/noddychest.*", "c/processor.c", "generated/*"]


class Noddychest(ConanFile):
    name = "noddychest"
    description = "Decodes damaged UTF-8 and UTF-16 without losing a byte"
    license = "MIT OR Apache-2.0"
    package_type = "library"
    settings = "os", "arch", "compiler", "build_type"
    options = {"shared": [True, False]}
    default_options = {"shared": False}

    def _top(self):
        return os.path.join(self.recipe_folder, "..", "..")

    def set_version(self):
        header = load(self, os.path.join(self._top(), "c", "noddychest.h"))
        self.version = ".".join(re.findall(r"^#define NODY_VERSION_(?:MAJOR|MINOR|PATCH) (\d+)$", header, re.M))

    def export_sources(self):
        for it in PACKED:
            copy(self, it, self._top(), self.export_sources_folder)

    def validate(self):
        if self.settings.os != "Linux" or self.settings.arch not in ("x86_64", "armv8"):
            raise ConanInvalidConfiguration("generated/ has assembly for Linux on x86_64 and aarch64")

    def layout(self):
        cmake_layout(self)

    def generate(self):
        toolchain = CMakeToolchain(self)
        toolchain.cache_variables["NODDYCHEST_PROGRAMS"] = False
        toolchain.cache_variables["BUILD_TESTING"] = False
        toolchain.generate()

    def build(self):
        cmake = CMake(self)
        cmake.configure()
        cmake.build()

    def package(self):
        copy(self, "LICENSE-*", self.source_folder, os.path.join(self.package_folder, "licenses"))
        CMake(self).install()

    def package_info(self):
        self.cpp_info.libs = ["noddychest"]
        self.cpp_info.set_property("cmake_file_name", "noddychest")
        self.cpp_info.set_property("cmake_target_name", "noddychest::noddychest")
