"""The package is pure Python. A wheel with the shared library inside is for Linux on x86-64, with
glibc 2.17 or newer."""

from pathlib import Path

from setuptools import Distribution, setup

try:
    from setuptools.command.bdist_wheel import bdist_wheel
except ImportError:
    from wheel.bdist_wheel import bdist_wheel


class Package(Distribution):
    def has_ext_modules(self):
        return Path("agefile/lib").is_dir()


class Wheel(bdist_wheel):
    def get_tag(self):
        return "py3", "none", "any" if self.root_is_pure else "manylinux_2_17_x86_64"


setup(distclass=Package, cmdclass={"bdist_wheel": Wheel})
