"""The wheel's tag: any Python 3, and any C library of x86-64 Linux, since the engine's library wants memcpy and memset
and names none. scripts/wheel copies that library in before it builds."""
import os
import sys

from setuptools import Distribution, setup
from wheel.bdist_wheel import bdist_wheel

if not os.path.exists('bay_market/libbay_market.so'):
    sys.exit('no libbay_market.so in bay_market: install prebuilt/bay_market-*.whl, or build it with scripts/wheel')


class OfThisMachine(Distribution):
    def has_ext_modules(self):
        return True


class Wheel(bdist_wheel):
    def get_tag(self):
        return 'py3', 'none', 'manylinux_2_5_x86_64.manylinux1_x86_64.musllinux_1_1_x86_64'


setup(distclass=OfThisMachine, cmdclass={'bdist_wheel': Wheel})
