"""Builds the extension, over the library of this machine's processor, for the stable ABI of Python 3.9: one wheel serves all later
versions."""
import pathlib
import platform

from setuptools import Extension, setup

HERE = pathlib.Path(__file__).resolve().parent
LIBRARY = "lib/aarch64/liborder.a" if platform.machine() == "aarch64" else "lib/liborder.a"

setup(
    ext_modules=[
        Extension(
            "order_check._native",
            sorted(str(it.relative_to(HERE)) for it in (HERE / "native").glob("*.c")),
            include_dirs=["lib"],
            depends=["native/native.h", "lib/order.h", LIBRARY],
            extra_objects=[LIBRARY],
            extra_compile_args=["-std=c11", "-fvisibility=hidden"],
            py_limited_api=True,
        )
    ],
    options={"bdist_wheel": {"py_limited_api": "cp39"}},
)
