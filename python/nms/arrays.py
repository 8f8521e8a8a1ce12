"""Many changes, looks and plans at once, in arrays of numpy over the structs of nms.h. Only this module needs numpy.

    changes = numpy.zeros(2, nms.arrays.CHANGE)     # prices in 1/10,000 dollars; numbers by board.part and board.sym
    nms.arrays.apply_all(board, changes)
    best = nms.arrays.best_all(board)               # best["offer"]["price"]; a row of size 0 is none

An array of another type raises TypeError. A number in an array that is out of its range is refused by the library.
"""
import ctypes
from ctypes import byref, c_size_t, c_uint32, c_void_p
from typing import Optional

import numpy
from numpy.typing import NDArray

from . import _LIBRARY, _MOST_PARTS, Board, RefusedAt, _Best, _Change, _Counts, _must, _Order, _Plan

__all__ = ["BEST", "CHANGE", "CUT", "LEG", "ORDER", "PLAN", "ROW", "RefusedAt", "apply_all", "apply_best", "best_all", "plan_all"]

CHANGE = numpy.dtype([("bid_price", "<u8"), ("offer_price", "<u8"), ("bid_shares", "<u4"), ("offer_shares", "<u4"), ("sym", "<u2"),
                      ("lot", "<u2"), ("part", "u1"), ("kind", "u1"), ("state", "u1"), ("spare", "u1")])
ROW = numpy.dtype([("price", "<u8"), ("receipt", "<u8"), ("size", "<u4"), ("part", "u1"), ("is_protected", "u1"), ("spare", "<u2")])
BEST = numpy.dtype([("version", "<u8"), ("bid", ROW), ("offer", ROW), ("market", "<u4"), ("spare", "<u4")])
ORDER = numpy.dtype([("limit", "<u8"), ("shares", "<u4"), ("self_help", "<u4"), ("sym", "<u2"), ("side", "u1"), ("manual", "u1"),
                     ("spare", "<u4")])
LEG = numpy.dtype([("price", "<u8"), ("shares", "<u4"), ("part", "u1"), ("spare_a", "u1"), ("spare_b", "<u2")])
CUT = numpy.dtype([("price", "<u8"), ("marginal", "<i8"), ("kind", "<u4"), ("spare", "<u4")])
PLAN = numpy.dtype([("version", "<u8"), ("cost_low", "<u8"), ("cost_high", "<i8"), ("filled", "<u4"), ("legs", "<u4"), ("cuts", "<u4"),
                    ("spare", "<u4"), ("leg", LEG, _MOST_PARTS), ("cut", CUT, _MOST_PARTS)])
if [it.itemsize for it in (CHANGE, BEST, ORDER, PLAN)] != [*map(ctypes.sizeof, (_Change, _Best, _Order, _Plan))]:
    raise ImportError("the layouts of nms.arrays are not those of nms.h")

# The same functions with addresses as arguments, so that no object of ctypes is made for each element. As in the package, the
# interpreter's lock is held through each call.
_FAST = ctypes.PyDLL(_LIBRARY._name)
for _name in ("nms_raw_apply_all", "nms_raw_apply_best", "nms_raw_best_all", "nms_raw_plan_all"):
    getattr(_FAST, _name).argtypes = [c_void_p, c_void_p, c_size_t, *([] if _name == "nms_raw_apply_all" else [c_void_p, c_size_t]), c_void_p]
    getattr(_FAST, _name).restype = c_uint32


def _rows(field: str, array: "NDArray[numpy.void]", kind: "numpy.dtype[numpy.void]") -> "NDArray[numpy.void]":
    """An argument that is an array of a type, one element after the other."""
    if not isinstance(array, numpy.ndarray) or array.dtype != kind or array.ndim != 1:
        raise TypeError(f"{field} is no array of one dimension of that type")
    return numpy.ascontiguousarray(array)


def apply_all(board: Board, changes: "NDArray[numpy.void]") -> int:
    """Applies changes in order, and returns how many. Raises RefusedAt at the first that is refused."""
    array, applied = _rows("changes", changes, CHANGE), c_size_t()
    if len(array) == 0:
        return 0
    code = _FAST.nms_raw_apply_all(ctypes.addressof(board._board), array.ctypes.data, len(array), ctypes.addressof(applied))
    if code:
        raise RefusedAt(code, applied.value)
    return applied.value


def apply_best(board: Board, changes: "NDArray[numpy.void]") -> "NDArray[numpy.void]":
    """Applies changes in order, and returns the best bid and offer of each change's symbol after it. Of a withdrawal the sym is
    used too. Raises RefusedAt at the first that is refused."""
    return _many("nms_raw_apply_best", board, _rows("changes", changes, CHANGE), BEST)


def best_all(board: Board, syms: Optional["NDArray[numpy.uint16]"] = None) -> "NDArray[numpy.void]":
    """The best bid and offer of each symbol of the setup, in its order; or of the symbols with these numbers."""
    counts = _Counts()
    _must(_LIBRARY.nms_raw_counts_of(byref(board._board), byref(counts)))
    asked = numpy.arange(counts.syms, dtype=numpy.uint16) if syms is None else syms
    if not isinstance(asked, numpy.ndarray) or asked.dtype != numpy.uint16 or asked.ndim != 1:
        raise TypeError("syms is no array of uint16")
    return _many("nms_raw_best_all", board, numpy.ascontiguousarray(asked), BEST)


def plan_all(board: Board, orders: "NDArray[numpy.void]") -> "NDArray[numpy.void]":
    """A plan for each order. All are on the board as it is now, so two plans may take the same shares."""
    return _many("nms_raw_plan_all", board, _rows("orders", orders, ORDER), PLAN)


def _many(name: str, board: Board, asked: "NDArray[numpy.generic]", kind: "numpy.dtype[numpy.void]") -> "NDArray[numpy.void]":
    """What one call of the library answers to each element."""
    found, done = numpy.zeros(len(asked), kind), c_size_t()
    if len(asked) == 0:
        return found
    where = [ctypes.addressof(board._board), asked.ctypes.data, len(asked), found.ctypes.data, len(found), ctypes.addressof(done)]
    code = getattr(_FAST, name)(*where)
    if code:
        raise RefusedAt(code, done.value)
    return found
