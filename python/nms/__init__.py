"""The proved quote board and sweep planner for Python 3.8 and later, over libnms.so by ctypes.

    import nms
    board = nms.Board(open("examples/builtin.toml", "rb").read())
    board.apply_text("Q,N,ABC,A,9.99,200,10.00,300")
    print(board.best("ABC").offer)

The library is the file in NMS_LIBRARY if that is set. Else it is libnms.so.2 beside this file (a wheel has it there), in lib/
of the installation that this file is part of, or what this file's repository built or released. nms.arrays takes numpy's arrays.

Prices are whole 1/10,000 dollars, sizes are shares, money is whole nanodollars: int, and no float anywhere.

A wrong argument raises NmsError, also one of a wrong type, and its `field` names the argument.

Threads may share a board: the interpreter's lock (GIL) is held through each call, so calls come one after the other. A Python
without that lock needs one of yours around every call on a shared board.
"""
import ctypes
import enum
import operator
import os
from ctypes import POINTER, Structure, byref, c_char, c_int64, c_size_t, c_uint8, c_uint16, c_uint32, c_uint64, c_void_p
from typing import Callable, Dict, Iterable, List, NamedTuple, Optional, Tuple, Type

__all__ = ["Best", "Board", "Change", "Doubt", "Kind", "Leg", "Market", "NmsError", "Order", "OrderSide", "Place", "Plan", "RefusedAt", "Row",
           "Side", "State", "Terms", "Through", "View", "setup_place", "version"]

_HERE = os.path.dirname(os.path.realpath(__file__))
_ABI, _MOST_PARTS, _MOST_OPENING = 2, 32, 65
# Where the library may be, seen from here: in a wheel, in an installation, and in a repository.
_PLACES = (f"libnms.so.{_ABI}", f"../../../../lib/libnms.so.{_ABI}", "../../crates/nms_c/out/libnms.so", "../../release/x86_64-linux/libnms.so")
_OK, _RANGE, _NO_PART, _NO_SYM, _NONE, _DOUBTED = 0, 10, 11, 12, 14, 16
_MOST_PRICE, _MOST_MILLIONTHS, _MOST_SHARES, _MOST_LOT = 99_999_999_999, 9_999_999_999_999, 999_999_999, 1_000
_MOST_SIZE = 4_294_967_295


# The structs of nms.h. Nothing compares these with the library but _SIZES below.

class _Board(Structure):
    _fields_ = [("mark", c_uint64), ("at", c_void_p)]


class _Terms(Structure):
    _fields_ = [("mark", c_uint64), ("at", c_void_p)]


class _Change(Structure):
    _fields_ = [("bid_price", c_uint64), ("offer_price", c_uint64), ("bid_shares", c_uint32), ("offer_shares", c_uint32),
                ("sym", c_uint16), ("lot", c_uint16), ("part", c_uint8), ("kind", c_uint8), ("state", c_uint8), ("spare", c_uint8)]


class _Opening(Structure):
    _fields_ = [("count", c_uint32), ("spare", c_uint32), ("change", _Change * _MOST_OPENING)]


class _Row(Structure):
    _fields_ = [("price", c_uint64), ("receipt", c_uint64), ("size", c_uint32), ("part", c_uint8), ("is_protected", c_uint8),
                ("spare", c_uint16)]


class _Best(Structure):
    _fields_ = [("version", c_uint64), ("bid", _Row), ("offer", _Row), ("market", c_uint32), ("spare", c_uint32)]


class _Rows(Structure):
    _fields_ = [("total", c_uint64), ("price", c_uint64 * _MOST_PARTS), ("receipt", c_uint64 * _MOST_PARTS),
                ("size", c_uint32 * _MOST_PARTS), ("part", c_uint8 * _MOST_PARTS), ("is_protected", c_uint8 * _MOST_PARTS),
                ("count", c_uint32), ("spare", c_uint32)]


class _View(Structure):
    _fields_ = [("version", c_uint64), ("market", c_uint32), ("sym", c_uint16), ("spare", c_uint16), ("bid", _Rows), ("offer", _Rows)]


class _Through(Structure):
    _fields_ = [("version", c_uint64), ("bids", c_uint32), ("offers", c_uint32), ("bid", _Row * _MOST_PARTS), ("offer", _Row * _MOST_PARTS)]


class _Order(Structure):
    _fields_ = [("limit", c_uint64), ("shares", c_uint32), ("self_help", c_uint32), ("sym", c_uint16), ("side", c_uint8),
                ("manual", c_uint8), ("spare", c_uint32)]


class _Leg(Structure):
    _fields_ = [("price", c_uint64), ("shares", c_uint32), ("part", c_uint8), ("spare_a", c_uint8), ("spare_b", c_uint16)]


class _Cut(Structure):
    _fields_ = [("price", c_uint64), ("marginal", c_int64), ("kind", c_uint32), ("spare", c_uint32)]


class _Plan(Structure):
    _fields_ = [("version", c_uint64), ("cost_low", c_uint64), ("cost_high", c_int64), ("filled", c_uint32), ("legs", c_uint32),
                ("cuts", c_uint32), ("spare", c_uint32), ("leg", _Leg * _MOST_PARTS), ("cut", _Cut * _MOST_PARTS)]


class _Doubt(Structure):
    _fields_ = [("doubt", c_uint32), ("breach", c_uint32), ("part", c_uint32), ("cut", c_uint32)]


class _Place(Structure):
    _fields_ = [("code", c_uint32), ("table", c_uint32), ("spot", c_uint32), ("spare", c_uint32), ("element", c_uint64),
                ("twin", c_uint64), ("start", c_uint64), ("end", c_uint64)]


class _Counts(Structure):
    _fields_ = [("applied", c_uint64), ("room", c_uint64), ("parts", c_uint32), ("syms", c_uint32)]


_SIZES = {_Board: 16, _Terms: 16, _Change: 32, _Opening: 2088, _Through: 1552, _Row: 24, _Best: 64, _Rows: 720, _View: 1456, _Order: 24, _Leg: 16, _Cut: 24, _Plan: 1320,
          _Doubt: 16, _Place: 48, _Counts: 24}

# The arguments of each function that is used here. Every one returns a code.
_CALLS = {
    "nms_abi": [],
    "nms_raw_version": [POINTER(c_char), c_size_t, POINTER(c_size_t)],
    "nms_raw_code_text": [c_uint32, POINTER(c_char), c_size_t, POINTER(c_size_t)],
    "nms_raw_open": [POINTER(c_char), c_size_t, POINTER(_Board)],
    "nms_raw_setup_place": [POINTER(c_char), c_size_t, POINTER(_Place)],
    "nms_raw_close": [POINTER(_Board)],
    "nms_raw_counts_of": [POINTER(_Board), POINTER(_Counts)],
    "nms_raw_find_part": [POINTER(_Board), POINTER(c_char), c_size_t, POINTER(c_uint8)],
    "nms_raw_find_sym": [POINTER(_Board), POINTER(c_char), c_size_t, POINTER(c_uint16)],
    "nms_raw_part_name": [POINTER(_Board), c_uint8, POINTER(c_char), c_size_t, POINTER(c_size_t)],
    "nms_raw_sym_name": [POINTER(_Board), c_uint16, POINTER(c_char), c_size_t, POINTER(c_size_t)],
    "nms_raw_apply": [POINTER(_Board), POINTER(_Change)],
    "nms_raw_apply_all": [POINTER(_Board), POINTER(_Change), c_size_t, POINTER(c_size_t)],
    "nms_raw_apply_best": [POINTER(_Board), POINTER(_Change), c_size_t, POINTER(_Best), c_size_t, POINTER(c_size_t)],
    "nms_raw_best_all": [POINTER(_Board), POINTER(c_uint16), c_size_t, POINTER(_Best), c_size_t, POINTER(c_size_t)],
    "nms_raw_plan_all": [POINTER(_Board), POINTER(_Order), c_size_t, POINTER(_Plan), c_size_t, POINTER(c_size_t)],
    "nms_raw_apply_text": [POINTER(_Board), POINTER(c_char), c_size_t],
    "nms_raw_apply_lines": [POINTER(_Board), POINTER(c_char), c_size_t, POINTER(c_size_t), POINTER(c_size_t)],
    "nms_raw_best_of": [POINTER(_Board), c_uint16, POINTER(_Best)],
    "nms_raw_view_of": [POINTER(_Board), c_uint16, POINTER(_View)],
    "nms_raw_ranked": [POINTER(_Board), c_uint16, c_uint8, c_uint8, POINTER(_Row)],
    "nms_raw_rows_of": [POINTER(_Board), c_uint16, c_uint8, POINTER(_Rows)],
    "nms_raw_traded_through": [POINTER(_Board), c_uint16, c_uint64, POINTER(_Through)],
    "nms_raw_unit_cost": [POINTER(_Board), c_uint8, c_uint8, c_uint64, POINTER(c_int64)],
    "nms_raw_opening_of": [POINTER(_Board), c_uint16, POINTER(_Opening)],
    "nms_raw_terms_open": [POINTER(c_char), c_size_t, POINTER(_Terms)],
    "nms_raw_terms_close": [POINTER(_Terms)],
    "nms_raw_terms_find_part": [POINTER(_Terms), POINTER(c_char), c_size_t, POINTER(c_uint8)],
    "nms_raw_terms_find_sym": [POINTER(_Terms), POINTER(c_char), c_size_t, POINTER(c_uint16)],
    "nms_raw_terms_part_name": [POINTER(_Terms), c_uint8, POINTER(c_char), c_size_t, POINTER(c_size_t)],
    "nms_raw_terms_sym_name": [POINTER(_Terms), c_uint16, POINTER(c_char), c_size_t, POINTER(c_size_t)],
    "nms_raw_through_view": [POINTER(_View), c_uint64, POINTER(_Through)],
    "nms_raw_reduce_view": [POINTER(_View), c_uint8, POINTER(c_uint32), POINTER(_View)],
    "nms_raw_plan_view": [POINTER(_Terms), POINTER(_View), POINTER(_Order), POINTER(_Plan)],
    "nms_raw_confirm_view": [POINTER(_Terms), POINTER(_View), POINTER(_Order), POINTER(_Plan), POINTER(_Doubt)],
    "nms_raw_plan_order": [POINTER(_Board), POINTER(_Order), POINTER(_Plan)],
    "nms_raw_confirm": [POINTER(_Board), POINTER(_Order), POINTER(_Plan), POINTER(_Doubt)],
    "nms_raw_plan_text": [POINTER(_Board), POINTER(_Order), POINTER(_Plan), POINTER(c_char), c_size_t, POINTER(c_size_t)],
    "nms_raw_read_plan": [POINTER(_Board), POINTER(c_char), c_size_t, POINTER(_Order), POINTER(_Plan)],
}


def _path() -> str:
    """The file of the library."""
    found = [os.path.normpath(os.path.join(_HERE, it)) for it in _PLACES]
    path = os.environ.get("NMS_LIBRARY", "") or next((it for it in found if os.path.exists(it)), "")
    if not os.path.exists(path):
        raise ImportError(f"{path or f'libnms.so.{_ABI}'} is not there. Places that were tried: {', '.join(found)}. NMS_LIBRARY names another")
    return path


def _fits(machine: str, flags: str) -> bool:
    """Whether the library runs on a processor, by its name and its flags. No flags: they can't be read, so nobody knows."""
    return machine == "x86_64" and (not flags or "sse4_1" in flags.split())


def _processor() -> Tuple[str, str]:
    """The name and the flags of this processor."""
    try:
        with open("/proc/cpuinfo", encoding="ascii", errors="replace") as file:
            flags = next((line.partition(":")[2] for line in file if line.startswith("flags")), "")
    except OSError:
        flags = ""
    return os.uname().machine, flags


def _load() -> ctypes.PyDLL:
    """The library, with the types of its functions; refuses one of another layout."""
    path = _path()
    if not _fits(*_processor()):
        raise ImportError(f"{path} needs a processor of x86-64 with SSE4.1")
    # CDLL would let the interpreter's lock go, so that two threads could be in calls on one board at once.
    library = ctypes.PyDLL(path)
    for name, arguments in _CALLS.items():
        function = getattr(library, name)
        function.argtypes, function.restype = arguments, c_uint32
    if library.nms_abi() != _ABI or any(ctypes.sizeof(it) != size for it, size in _SIZES.items()):
        raise ImportError(f"{path} is of another version than {__name__}")
    return library


_LIBRARY = _load()


class NmsError(Exception):
    """A call that was refused: `code` is one of `enum nms_code` of nms.h. `field` is the argument at fault if that is known,
    else "". An argument of a wrong type has code 10, as a number that is out of its range."""

    def __init__(self, code: int, field: str = "", why: str = "") -> None:
        text, size = ctypes.create_string_buffer(128), c_size_t()
        _LIBRARY.nms_raw_code_text(code, text, len(text), byref(size))
        super().__init__(f"code {code}: " + (f"{field}: {why}" if field else text.raw[:size.value].decode()))
        self.code, self.field = code, field


class RefusedAt(NmsError):
    """One of many was refused. `place` is its place, from 0 on. Of changes, those before it were applied. Of lines, `at` is the byte
    where the refused one begins; else it is None."""

    def __init__(self, code: int, place: int, at: Optional[int] = None) -> None:
        super().__init__(code)
        self.place, self.at = place, at


def _must(code: int) -> None:
    if code != _OK:
        raise NmsError(code)


def _found(code: int, field: str, value: object) -> None:
    """As `_must`, of a call that looks up a name or a number."""
    if code in (_NO_PART, _NO_SYM):
        raise NmsError(code, field, f"{value!r:.60} is not on the roster")
    _must(code)


# ctypes cuts a number that is too large without a word, and takes a str for its letters: so every argument is tested here.

def _number(field: str, value: int, least: int, most: int) -> int:
    """An argument that is a number from the least to the most."""
    try:
        number = operator.index(value)
    except TypeError:
        raise NmsError(_RANGE, field, f"{value!r:.60} is no whole number") from None
    if not least <= number <= most:
        raise NmsError(_RANGE, field, f"{number} is not {least} to {most}")
    return number


def _count(field: str, value: int, most: int) -> int:
    """An argument that is a number from 1 on. True is none: it stands in the place of another argument."""
    if isinstance(value, bool):
        raise NmsError(_RANGE, field, f"{value} is no whole number")
    return _number(field, value, 1, most)


def _side(field: str, side: Optional[Tuple[int, int]]) -> Tuple[int, int]:
    """An argument that is a price with shares, or None for no quotation."""
    if side is None:
        return 0, 0
    if not isinstance(side, tuple) or len(side) != 2:
        raise NmsError(_RANGE, field, f"{side!r:.60} is no price with shares")
    return _count(field, side[0], _MOST_PRICE), _count(field, side[1], _MOST_SHARES)


def _is(field: str, value: object, kind: Type[object]) -> None:
    """An argument has to be of a type."""
    if not isinstance(value, kind):
        raise NmsError(_RANGE, field, f"{value!r:.60} is no {kind.__name__}")


def _bytes(field: str, value: str) -> bytes:
    """An argument that is a text. A half character stays one, and the library refuses it."""
    _is(field, value, str)
    return value.encode("utf-8", "surrogatepass")


def version() -> str:
    """The version of the library, such as 0.3.0."""
    text, size = ctypes.create_string_buffer(128), c_size_t()
    _must(_LIBRARY.nms_raw_version(text, len(text), byref(size)))
    return text.raw[:size.value].decode()


class Side(enum.IntEnum):
    """A side of the board."""
    BID, OFFER = 0, 1


class OrderSide(enum.IntEnum):
    """Whether an order buys or sells."""
    BUY, SELL = 0, 1


class State(enum.IntEnum):
    """The state of a quotation: only an automated one is protected, and a halted one is no row."""
    AUTOMATED, MANUAL, HALTED = 0, 1, 2


class Kind(enum.IntEnum):
    """What a change alters: a quotation, the state of one, all quotations of a participant, or a round lot."""
    QUOTE, STATE, WITHDRAW, LOT = 0, 1, 2, 3


class Change(NamedTuple):
    """A change of a board, with what its kind says; the other fields are ignored. `bid` and `offer`: price and shares, or None."""
    kind: Kind
    part: str = ""
    sym: str = ""
    state: State = State.AUTOMATED
    bid: Optional[Tuple[int, int]] = None
    offer: Optional[Tuple[int, int]] = None
    lot: int = 0


class Market(enum.IntEnum):
    """How the best bid and the best offer compare."""
    EMPTY, ONE_SIDED, NORMAL, LOCKED, CROSSED = range(5)


class Row(NamedTuple):
    """A quotation of at least one round lot. `receipt`: in the order of the changes that last altered a side of the symbol, at most
    the version. It is the number of that change until 9,990,000 changes were applied."""
    part: str
    price: int
    size: int
    receipt: int
    is_protected: bool


class Best(NamedTuple):
    """The best rows of a symbol; None if a side has none."""
    version: int
    market: Market
    bid: Optional[Row]
    offer: Optional[Row]


class Through(NamedTuple):
    """The protected quotations that a price trades through: bids above it and offers below it, each by participant."""
    version: int
    bids: List[Row]
    offers: List[Row]


class Leg(NamedTuple):
    """What goes to one participant, at the price of its quotation."""
    part: str
    price: int
    shares: int


class Order(NamedTuple):
    """What is to be traded. `manual`: also with manual quotations. `self_help`: participants that are passed over."""
    side: OrderSide
    sym: str
    shares: int
    limit: int
    manual: bool = False
    self_help: Tuple[str, ...] = ()


class Doubt(NamedTuple):
    """Why a plan is not confirmed: 1 to 7 for K1 to K7, and of K1 the breach, 1 to 12 for P1 to P12."""
    doubt: int
    breach: int


_TABLES = ("no document", "top", "participant", "symbol")
_SPOTS = ("", "tape_limit", "queue", "desks", "caps", "feeds", "participant", "symbol", "name", "feed", "fee", "rate", "lot",
          "a key that may not stand here", "a name that stands twice", "no table")


class Place(NamedTuple):
    """Where a text is no setup, and why. `code`: 1 to 8 for C1 to C8. `table`: "top", or the array whose element it is.
    `element`: its place there, from 0 on. `spot`: the key that is missing or has a wrong value, or what else is wrong. `twin`:
    the place of the earlier element that has the name. `start`, `end`: the bytes at which reading a text stopped that is no
    document."""
    code: int
    table: str
    element: int
    spot: str
    twin: int
    start: int
    end: int


def setup_place(setup: bytes) -> Optional[Place]:
    """Where a text is no setup: the first place of the code that `Board` raises. None if it is a setup."""
    _is("setup", setup, bytes)
    it = _Place()
    _must(_LIBRARY.nms_raw_setup_place(setup, len(setup), byref(it)))
    if it.code == _OK:
        return None
    return Place(it.code, _TABLES[it.table], it.element, _SPOTS[it.spot], it.twin, it.start, it.end)


class Plan:
    """A plan with the numbers of the order that it was made for, and its certificate."""

    def __init__(self, roster: "_Named", order: _Order, raw: _Plan) -> None:
        self._order, self._raw = order, raw
        self.version: int = raw.version
        self.filled: int = raw.filled
        # Nanodollars with fees; negative for a sale.
        self.cost: int = (raw.cost_high << 64) + raw.cost_low
        self.legs: List[Leg] = [Leg(roster.part_name(it.part), it.price, it.shares) for it in raw.leg[:raw.legs]]


class View:
    """All that a look at a symbol showed, as a value: `Terms` plan and confirm on it."""

    def __init__(self, raw: _View) -> None:
        self._raw = raw
        self.version: int = raw.version

    def __bytes__(self) -> bytes:
        """The struct of nms.h, as it may be stored or sent."""
        return bytes(self._raw)

    @classmethod
    def of(cls, data: bytes) -> "View":
        """The view of such bytes. Whether some look showed it is tested when it is used."""
        _is("data", data, bytes)
        if len(data) != ctypes.sizeof(_View):
            raise NmsError(_RANGE, "data", f"{len(data)} bytes are not {ctypes.sizeof(_View)}")
        return cls(_View.from_buffer_copy(data))


class _Named:
    """A handle with a roster: of a board, or of terms. It is closed by `close`, by `with`, or when nothing holds it any more."""
    # How the library's functions of this handle are named, and how this handle is.
    _CALLED, _KIND = "", ""

    def __init__(self, handle: Structure, setup: bytes) -> None:
        _is("setup", setup, bytes)
        self._handle = handle
        # Names and their numbers, which stay the same as long as the handle is open.
        self._parts: Dict[str, int] = {}
        self._syms: Dict[str, int] = {}
        self._names: Dict[int, str] = {}
        self._sym_names: Dict[int, str] = {}
        self._is_open = False
        _must(self._raw("open")(setup, len(setup), byref(self._handle)))
        self._is_open = True

    def _raw(self, name: str) -> Callable[..., int]:
        """A function of the library on this handle."""
        call: Callable[..., int] = getattr(_LIBRARY, f"nms_raw_{self._CALLED}{name}")
        return call

    def close(self) -> None:
        """Gives the memory back. Every other call is refused from then on."""
        if self._is_open:
            self._is_open = False
            self._parts.clear()
            self._syms.clear()
            self._names.clear()
            self._sym_names.clear()
            _must(self._raw("close")(byref(self._handle)))

    def __exit__(self, *_: object) -> None:
        self.close()

    def __del__(self) -> None:
        if getattr(self, "_is_open", False):
            self.close()

    def __copy__(self) -> "_Named":
        raise TypeError(f"{self._KIND} never copied")

    __deepcopy__ = __reduce_ex__ = lambda self, *_: self.__copy__()

    def part(self, name: str) -> int:
        """The number of a participant."""
        return self._part("part", name)

    def _part(self, field: str, name: str) -> int:
        _is(field, name, str)
        if name not in self._parts:
            text, number = _bytes(field, name), c_uint8()
            _found(self._raw("find_part")(byref(self._handle), text, len(text), byref(number)), field, name)
            self._parts[name] = number.value
        return self._parts[name]

    def sym(self, name: str) -> int:
        """The number of a symbol."""
        _is("sym", name, str)
        if name not in self._syms:
            text, number = _bytes("sym", name), c_uint16()
            _found(self._raw("find_sym")(byref(self._handle), text, len(text), byref(number)), "sym", name)
            self._syms[name] = number.value
        return self._syms[name]

    def part_name(self, part: int) -> str:
        """The name of a participant's number."""
        number = _number("part", part, 0, 255)
        if number not in self._names:
            text, size = ctypes.create_string_buffer(9), c_size_t()
            _found(self._raw("part_name")(byref(self._handle), number, text, len(text), byref(size)), "part", number)
            self._names[number] = text.raw[:size.value].decode()
        return self._names[number]

    def sym_name(self, sym: int) -> str:
        """The name of a symbol's number."""
        number = _number("sym", sym, 0, 65_535)
        if number not in self._sym_names:
            text, size = ctypes.create_string_buffer(9), c_size_t()
            _found(self._raw("sym_name")(byref(self._handle), number, text, len(text), byref(size)), "sym", number)
            self._sym_names[number] = text.raw[:size.value].decode()
        return self._sym_names[number]

    def _row(self, row: _Row) -> Optional[Row]:
        if row.size == 0:
            return None
        return Row(self.part_name(row.part), row.price, row.size, row.receipt, bool(row.is_protected))

    def _through(self, came: _Through) -> Through:
        bids, offers = ([it for it in map(self._row, rows) if it] for rows in (came.bid, came.offer))
        return Through(came.version, bids, offers)

    def _numbers(self, order: Order) -> _Order:
        _is("order", order, Order)
        side, manual = _number("side", order.side, 0, 1), _number("manual", order.manual, 0, 1)
        shares, limit = _count("shares", order.shares, _MOST_SHARES), _count("limit", order.limit, _MOST_PRICE)
        # A str is a sequence of letters, each of which may be the name of another participant.
        if not isinstance(order.self_help, (tuple, list, set, frozenset)):
            raise NmsError(_RANGE, "self_help", f"{order.self_help!r:.60} is no tuple of names")
        bits = 0
        for name in order.self_help:
            bits |= 1 << self._part("self_help", name)
        return _Order(limit, shares, bits, self.sym(order.sym), side, manual)


class Board(_Named):
    """A board. It is closed by `close`, by `with`, or when nothing holds it any more."""
    _KIND = "a board is"

    def __init__(self, setup: bytes) -> None:
        """Opens a board from the text of a setup. Of its calls only this one takes memory of the library."""
        self._board = _Board()
        super().__init__(self._board, setup)

    def __enter__(self) -> "Board":
        return self

    def applied(self) -> int:
        """How many changes were applied: the version that answers rest on."""
        counts = _Counts()
        _must(_LIBRARY.nms_raw_counts_of(byref(self._board), byref(counts)))
        return int(counts.applied)

    def apply(self, change: Change) -> None:
        """Applies a change. A refused one alters nothing."""
        _must(_LIBRARY.nms_raw_apply(byref(self._board), byref(self._raw_change(change))))

    def apply_all(self, changes: Iterable[Change]) -> int:
        """Applies changes in order, and returns how many. Raises RefusedAt at the first that the library refuses. An argument that
        is wrong raises before any is applied."""
        raw = [self._raw_change(it) for it in changes]
        applied, array = c_size_t(), (_Change * max(1, len(raw)))(*raw)
        code = _LIBRARY.nms_raw_apply_all(byref(self._board), array, len(raw), byref(applied))
        if code:
            raise RefusedAt(code, applied.value)
        return applied.value

    def apply_best(self, changes: Iterable[Change]) -> List[Best]:
        """As `apply_all`, and the best rows of each change's symbol after it. A withdrawal has to name a symbol here."""
        asked = list(changes)
        raw = [self._raw_change(it) for it in asked]
        for one, change in zip(raw, asked):
            one.sym = self.sym(change.sym)
        done, array, found = c_size_t(), (_Change * max(1, len(raw)))(*raw), (_Best * max(1, len(raw)))()
        code = _LIBRARY.nms_raw_apply_best(byref(self._board), array, len(raw), found, len(raw), byref(done))
        if code:
            raise RefusedAt(code, done.value)
        return [self._best(it) for it in found[:done.value]]

    def _raw_change(self, change: Change) -> _Change:
        _is("change", change, Change)
        kind, raw = _number("kind", change.kind, 0, 3), _Change()
        raw.kind = kind
        if kind in (Kind.QUOTE, Kind.STATE):
            raw.state = _number("state", change.state, 0, 2)
        if kind == Kind.QUOTE:
            raw.bid_price, raw.bid_shares = _side("bid", change.bid)
            raw.offer_price, raw.offer_shares = _side("offer", change.offer)
        if kind == Kind.LOT:
            raw.lot = _count("lot", change.lot, _MOST_LOT)
        else:
            raw.part = self.part(change.part)
        if kind != Kind.WITHDRAW:
            raw.sym = self.sym(change.sym)
        return raw

    def apply_text(self, record: str) -> None:
        """Applies the change that a record says, as `Q,N,ABC,A,9.99,200,10.00,300`. A refused one alters nothing."""
        text = _bytes("record", record)
        _must(_LIBRARY.nms_raw_apply_text(byref(self._board), text, len(text)))

    def apply_lines(self, text: bytes) -> int:
        """Applies the changes that the lines of a text say, as a file of changes has them, in order, and returns how many. Raises
        RefusedAt at the first that is refused: those before it were applied, and `at` is the byte where its line begins."""
        _is("text", text, bytes)
        applied, at = c_size_t(), c_size_t()
        code = _LIBRARY.nms_raw_apply_lines(byref(self._board), text, len(text), byref(applied), byref(at))
        if code:
            raise RefusedAt(code, applied.value, at.value)
        return applied.value

    def best(self, sym: str) -> Best:
        """The best bid and the best offer of a symbol."""
        best = _Best()
        _must(_LIBRARY.nms_raw_best_of(byref(self._board), self.sym(sym), byref(best)))
        return self._best(best)

    def best_all(self, syms: Iterable[str]) -> List[Best]:
        """The best bid and the best offer of each of some symbols, in one call."""
        numbers = [self.sym(it) for it in syms]
        done, asked, found = c_size_t(), (c_uint16 * max(1, len(numbers)))(*numbers), (_Best * max(1, len(numbers)))()
        _must(_LIBRARY.nms_raw_best_all(byref(self._board), asked, len(numbers), found, len(numbers), byref(done)))
        return [self._best(it) for it in found[:done.value]]

    def _best(self, best: _Best) -> Best:
        return Best(best.version, Market(best.market), self._row(best.bid), self._row(best.offer))

    def view(self, sym: str) -> View:
        """All that a look at a symbol shows, as a value."""
        view = _View()
        _must(_LIBRARY.nms_raw_view_of(byref(self._board), self.sym(sym), byref(view)))
        return View(view)

    def ranked(self, sym: str, side: Side, place: int) -> Optional[Row]:
        """The row at a place of a side's rank order, from 0 on; None if the side has fewer rows."""
        row, number, rank = _Row(), _number("side", side, 0, 1), _number("place", place, 0, 255)
        code = _LIBRARY.nms_raw_ranked(byref(self._board), self.sym(sym), number, rank, byref(row))
        if code == _NONE:
            return None
        _must(code)
        return self._row(row)

    def rows(self, sym: str, side: Side) -> List[Row]:
        """The rows of a side in rank order, best first."""
        it, number = _Rows(), _number("side", side, 0, 1)
        _must(_LIBRARY.nms_raw_rows_of(byref(self._board), self.sym(sym), number, byref(it)))
        numbers = list(zip(it.part, it.price, it.size, it.receipt, it.is_protected))[:it.count]
        return [Row(self.part_name(part), price, size, receipt, bool(flag)) for part, price, size, receipt, flag in numbers]

    def through(self, sym: str, millionths: int) -> Through:
        """What an execution at a price in 1/1,000,000 dollars trades through."""
        came, price = _Through(), _count("millionths", millionths, _MOST_MILLIONTHS)
        _must(_LIBRARY.nms_raw_traded_through(byref(self._board), self.sym(sym), price, byref(came)))
        return self._through(came)

    def unit_cost(self, part: str, side: OrderSide, price: int) -> int:
        """What one share costs with a participant's fee, in nanodollars; negative for a sale."""
        cost, number, limit = c_int64(), _number("side", side, 0, 1), _count("price", price, _MOST_PRICE)
        _must(_LIBRARY.nms_raw_unit_cost(byref(self._board), self.part(part), number, limit, byref(cost)))
        return cost.value

    def opening(self, sym: str) -> List[Change]:
        """The changes by which a new board of the same setup gets a symbol's present rows."""
        came = _Opening()
        _must(_LIBRARY.nms_raw_opening_of(byref(self._board), self.sym(sym), byref(came)))
        return [self._change(it) for it in came.change[:came.count]]

    def _change(self, raw: _Change) -> Change:
        """The change of numbers that the library wrote: a quotation, a state or a round lot of a symbol."""
        kind, sym = Kind(raw.kind), self.sym_name(raw.sym)
        if kind == Kind.LOT:
            return Change(kind, sym=sym, lot=raw.lot)
        bid = (raw.bid_price, raw.bid_shares) if raw.bid_shares else None
        offer = (raw.offer_price, raw.offer_shares) if raw.offer_shares else None
        return Change(kind, self.part_name(raw.part), sym, State(raw.state), bid, offer)

    def plan(self, order: Order) -> Plan:
        """The best lawful plan for an order."""
        numbers, plan = self._numbers(order), _Plan()
        _must(_LIBRARY.nms_raw_plan_order(byref(self._board), byref(numbers), byref(plan)))
        return Plan(self, numbers, plan)

    def plan_all(self, orders: Iterable[Order]) -> List[Plan]:
        """A plan for each order, in one call. All are on the board as it is now, so two plans may take the same shares."""
        numbers = [self._numbers(it) for it in orders]
        done, asked, found = c_size_t(), (_Order * max(1, len(numbers)))(*numbers), (_Plan * max(1, len(numbers)))()
        _must(_LIBRARY.nms_raw_plan_all(byref(self._board), asked, len(numbers), found, len(numbers), byref(done)))
        return [Plan(self, order, _Plan.from_buffer_copy(plan)) for order, plan in zip(numbers, found)]

    def confirm(self, plan: Plan) -> Optional[Doubt]:
        """None if the plan is lawful and the best one for its order on this board; else why it is not confirmed."""
        _is("plan", plan, Plan)
        doubt = _Doubt()
        code = _LIBRARY.nms_raw_confirm(byref(self._board), byref(plan._order), byref(plan._raw), byref(doubt))
        if code == _DOUBTED:
            return Doubt(doubt.doubt, doubt.breach)
        _must(code)
        return None

    def text(self, plan: Plan) -> str:
        """The text of a plan and its certificate, as `nms_tool check` reads it."""
        _is("plan", plan, Plan)
        text, size = ctypes.create_string_buffer(8192), c_size_t()
        _must(_LIBRARY.nms_raw_plan_text(byref(self._board), byref(plan._order), byref(plan._raw), text, len(text), byref(size)))
        return text.raw[:size.value].decode()

    def read(self, text: str) -> Plan:
        """The plan that such a text says. It need not be lawful: `confirm` judges that."""
        order, plan, data = _Order(), _Plan(), _bytes("text", text)
        _must(_LIBRARY.nms_raw_read_plan(byref(self._board), data, len(data), byref(order), byref(plan)))
        return Plan(self, order, plan)


class Terms(_Named):
    """The roster and the fees of a setup, which never change: plans and checks on views, with no board."""
    _CALLED, _KIND = "terms_", "terms are"

    def __init__(self, setup: bytes) -> None:
        """Opens terms from the text of a setup. Of its calls only this one takes memory of the library."""
        self._terms = _Terms()
        super().__init__(self._terms, setup)

    def __enter__(self) -> "Terms":
        return self

    def plan(self, view: View, order: Order) -> Plan:
        """The best lawful plan for an order on a view. Code 21: no look shows such a view."""
        _is("view", view, View)
        numbers, plan = self._numbers(order), _Plan()
        _must(_LIBRARY.nms_raw_plan_view(byref(self._terms), byref(view._raw), byref(numbers), byref(plan)))
        return Plan(self, numbers, plan)

    def through(self, view: View, millionths: int) -> Through:
        """What an execution at a price in 1/1,000,000 dollars trades through on a view."""
        _is("view", view, View)
        came, price = _Through(), _count("millionths", millionths, _MOST_MILLIONTHS)
        _must(_LIBRARY.nms_raw_through_view(byref(view._raw), price, byref(came)))
        return self._through(came)

    def reduced(self, view: View, side: Side, most: Dict[str, int]) -> View:
        """A view with at most the given number of shares of each participant on one side; of one that is not named, all of them. It is
        for shares that one's own orders have taken, and that the quotes still show. A buyer reduces the offers."""
        _is("view", view, View)
        _is("most", most, dict)
        left, number, shares = _View(), _number("side", side, 0, 1), (c_uint32 * _MOST_PARTS)(*[_MOST_SIZE] * _MOST_PARTS)
        for part, count in most.items():
            shares[self._part("most", part)] = _number("most", count, 0, _MOST_SIZE)
        _must(_LIBRARY.nms_raw_reduce_view(byref(view._raw), number, shares, byref(left)))
        return View(left)

    def confirm(self, view: View, plan: Plan) -> Optional[Doubt]:
        """None if the plan is lawful and the best one for its order on a view; else why it is not confirmed."""
        _is("view", view, View)
        _is("plan", plan, Plan)
        doubt = _Doubt()
        code = _LIBRARY.nms_raw_confirm_view(byref(self._terms), byref(view._raw), byref(plan._order), byref(plan._raw), byref(doubt))
        if code == _DOUBTED:
            return Doubt(doubt.doubt, doubt.breach)
        _must(code)
        return None
