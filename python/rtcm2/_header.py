"""What include/rtcm2.h says: its calls, sizes and refusals. `make python` puts the header that the library was built with
beside this file, so that there is no second list which could differ from it."""

import ctypes
import re
from pathlib import Path
from typing import Any

HERE = Path(__file__).parent

_TYPES: dict[str, Any] = {
    "uint8_t": ctypes.c_uint8,
    "uint16_t": ctypes.c_uint16,
    "uint32_t": ctypes.c_uint32,
    "uint64_t": ctypes.c_uint64,
    "int8_t": ctypes.c_int8,
    "int16_t": ctypes.c_int16,
    "int32_t": ctypes.c_int32,
    "size_t": ctypes.c_size_t,
}

_TEXT = re.compile(r"^ *case (\d+): return \"(.*)\";$", re.MULTILINE)
_CONSTANT = re.compile(r"^ +RTCM2_(\w+) = (\d+),? */\* (.*?) \*/$", re.MULTILINE)
_DECLARED = re.compile(r"^(uint8_t|size_t) (rtcm2_\w+)\(([^()]*)\);", re.MULTILINE)


def _text() -> str:
    try:
        return (HERE / "rtcm2.h").read_text(encoding="utf-8")
    except OSError as error:
        raise ImportError(f"rtcm2: {error}; `make python` builds the library and puts both in place") from error


def _type_of(parameter: str) -> Any:
    """The ctypes type of one C parameter. Every pointer passes as an address, so that bytes, a lent buffer or a place inside
    one can stand there."""
    if "*" in parameter:
        return ctypes.c_void_p
    return _TYPES[parameter.split()[0]]


def _calls(header: str) -> dict[str, tuple[Any, list[Any]]]:
    """The functions declared: for each its answer's type and those of its parameters."""
    calls = {}
    for answer, name, parameters in _DECLARED.findall(re.sub(r"/\*.*?\*/", "", header, flags=re.DOTALL)):
        listed = [one.strip() for one in parameters.split(",")]
        calls[name] = (_TYPES[answer], [_type_of(one) for one in listed if one != "void"])
    return calls


def _numbers(header: str) -> dict[str, int]:
    """The numbers of refusals by name."""
    body = header[header.index("enum {", header.index("The refusals")) :]
    return {name: int(number) for name, number, _ in _CONSTANT.findall(body[: body.index("};")])}


_HEADER = _text()

CALLS = _calls(_HEADER)
NUMBERS = _numbers(_HEADER)
TEXTS = {int(number): text for number, text in _TEXT.findall(_HEADER) if int(number)}
CONSTANTS = {name: int(number) for name, number, _ in _CONSTANT.findall(_HEADER)}
