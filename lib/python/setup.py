"""The tag of the wheel. What else there is to say stands in pyproject.toml.

With the shared library in the package, which `make lib` puts there, the wheel is for the processor and the system that the
library was built for. Without it the wheel is for all, and finds a library that is installed.
"""

import os

from setuptools import Distribution, setup

try:
    from setuptools.command.bdist_wheel import bdist_wheel
except ImportError:  # before setuptools 70.1
    from wheel.bdist_wheel import bdist_wheel

LIBRARY = os.path.join(os.path.dirname(os.path.abspath(__file__)), "gate", "libgate_c.so.0")


class Package(Distribution):
    def has_ext_modules(self):
        return os.path.exists(LIBRARY)


class Wheel(bdist_wheel):
    def get_tag(self):
        # the library is loaded by ctypes, so any Python 3 will do
        return "py3", "none", super().get_tag()[2]


setup(distclass=Package, cmdclass={"bdist_wheel": Wheel})
