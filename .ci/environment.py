"""The standard environment, and the header that a printed table has of the environment in which it is made."""

import re
import tomllib

# The environment of CPython 3.9.18 on Linux and x86-64, as an environment file: that of the run without words.
STANDARD = """os_name = "posix"
sys_platform = "linux"
platform_machine = "x86_64"
platform_python_implementation = "CPython"
platform_release = "6.1.0-18-amd64"
platform_system = "Linux"
platform_version = "#1 SMP"
python_version = "3.9"
python_full_version = "3.9.18"
implementation_name = "cpython"
implementation_version = "3.9.18"
"""
# All variables but `extra`, in the order of PEP 508, which is that of a header's lines.
VARIABLES = [line.split(" ")[0] for line in STANDARD.splitlines()]


def header(text):
    """Returns the header, as bytes, of the environment that an environment file gives, by what Python reads in the file."""
    read = tomllib.loads(text.decode("utf-8-sig") if isinstance(text, bytes) else text)
    extra = re.sub(r"[-_.]+", "-", read.pop("extra", "")).translate({it: it + 32 for it in range(ord("A"), ord("Z") + 1)})
    if sorted(read) != sorted(VARIABLES):
        raise ValueError("no environment file with all variables")
    lines = ["pep-table 2", *(f"env {name}={read[name]}" for name in VARIABLES), f"env extra={extra}"]
    return "".join(f"{line}\n" for line in lines).encode()


HEADER = header(STANDARD)
