"""The library as it runs on this machine, behind the second program's names."""

import ctypes
import os
from functools import partial

import second

SLICE = (ctypes.c_void_p, ctypes.c_size_t)
I64, U64, U32 = ctypes.c_int64, ctypes.c_uint64, ctypes.c_uint32
OPTIONS = (U64,) * 6
IMAGE = SLICE + OPTIONS
WINDOW = (U64, U64)


def load():
    here = os.path.dirname(os.path.abspath(__file__))
    return ctypes.CDLL(os.path.join(here, "..", "..", "target", "native", "libslc1.so"))


LIBRARY = load()


def declared(name, answer, *parameters):
    function = getattr(LIBRARY, "slc1_" + name)
    function.restype, function.argtypes = answer, parameters
    return function


FNV1A64 = declared("fnv1a64", U64, *SLICE)
CRC32C = declared("crc32c", U32, *SLICE)
REVISION_ORDER = declared("revision_order", ctypes.c_int32, I64, I64)
REVISION_DISTANCE = declared("revision_distance", U64, I64, I64)
OPEN_CHECK = declared("open_check", U32, *IMAGE)
USER_FLAGS = declared("user_flags", U64, *IMAGE)
USER_DATA = declared("user_data", U32, *IMAGE, *SLICE)
IMAGE_CAPACITY = declared("image_capacity", U64, *IMAGE)
IMAGE_BUCKETS = declared("image_buckets", U64, *IMAGE)
IMAGE_TOTAL = declared("image_total", U64, *IMAGE)
LOOKUP = declared("lookup", U32, *IMAGE, *SLICE)
LOOKUP_SLOT = declared("lookup_slot", U64, *IMAGE, *SLICE)
LOOKUP_REVISION = declared("lookup_revision", I64, *IMAGE, *SLICE)
LOOKUP_BUCKETS = declared("lookup_buckets", U64, *IMAGE, *SLICE)
LOOKUP_RESULTS = declared("lookup_results", U32, *IMAGE, *SLICE, *SLICE)
TOTAL_SIZE = declared("total_size", U64, *OPTIONS)
KEY_OFFSET = declared("key_offset", U64, *OPTIONS, U64)
INDEX_OFFSET = declared("index_offset", U64, *OPTIONS, U64)
FULL_CHECK = declared("full_check", U32, *IMAGE)
FULL_CHECK_LIVE = declared("full_check_live", U64, *IMAGE)
FULL_CHECK_TOMBSTONES = declared("full_check_tombstones", U64, *IMAGE)
FULL_CHECK_PROBES = declared("full_check_probes", U64, *IMAGE)
FULL_CHECK_RESULTS = declared("full_check_results", U32, *IMAGE, *SLICE)
SCAN = declared("scan", U32, *IMAGE, *WINDOW, *SLICE)
SCAN_TOTAL = declared("scan_total", U64, *IMAGE, *WINDOW, *SLICE)
SCAN_WRITTEN = declared("scan_written", U64, *IMAGE, *WINDOW, *SLICE)
SCAN_RESULTS = declared("scan_results", U32, *IMAGE, *WINDOW, *SLICE, *SLICE)
CREATE = declared("create", U32, *IMAGE)
BEGIN = declared("begin", U32, *IMAGE)
CHECKPOINT = declared("checkpoint", U32, *IMAGE)
INVALIDATE = declared("invalidate", U32, *IMAGE)
SET_USER_FIELDS = declared("set_user_fields", U32, *IMAGE, U64, *SLICE)
COMMIT = declared("commit", U32, *IMAGE, *SLICE)
MATCH = declared("match", U32, *IMAGE, U64, U64, *SLICE, *WINDOW, *SLICE)
MATCH_TOTAL = declared("match_total", U64, *IMAGE, U64, U64, *SLICE, *WINDOW, *SLICE)
MATCH_WRITTEN = declared("match_written", U64, *IMAGE, U64, U64, *SLICE, *WINDOW, *SLICE)
MATCH_RESULTS = declared("match_results", U32, *IMAGE, U64, U64, *SLICE, *WINDOW, *SLICE, *SLICE)

# stand before and behind a lent list, and an image that is written
GUARD = 0xA5A5A5A5
GUARDS = b"\xA5" * 64


def lent(data):
    """Bytes as a pointer and a length; the pointer is never NULL."""
    return (ctypes.c_char * max(len(data), 1)).from_buffer_copy(data or b"\0"), len(data)


class Lent:
    """A list of numbers, lent between two guard entries that every call leaves alone."""

    def __init__(self, kind, entries):
        self.entries, self.room = entries, (kind * (len(entries) + 2))(GUARD, *entries, GUARD)
        self.slice = ctypes.byref(self.room, ctypes.sizeof(kind)), len(entries)

    def back(self):
        """The entries as the call left them."""
        first, *entries, last = self.room
        if (first, last) != (GUARD, GUARD):
            raise AssertionError("the call wrote outside its list")
        return entries


def reported(call, results, numbers=None):
    """A call that fills a list of results, and one that lists slots that of their numbers too."""
    lists = [Lent(U64, results)] if numbers is None else [Lent(U32, numbers), Lent(U64, results)]
    answer = call(*(word for lent_list in lists for word in lent_list.slice))
    for lent_list in lists:
        lent_list.entries[:] = lent_list.back()
    return answer


def agree(call, single, numbers=None, left=None):
    """The call that hands out all numbers gives those of the single calls, and leaves the list that they leave."""
    results = [GUARD] * (len(single) + 1)
    if reported(call, results, numbers) != single[0] or results != [*single, GUARD] or numbers != left:
        raise AssertionError("the call that hands out all numbers gives others than the single calls")


def fnv1a64(data):
    return FNV1A64(*lent(data))


def crc32c(data):
    return CRC32C(*lent(data))


def revision_age(first, other):
    return second.Age(REVISION_ORDER(first, other), REVISION_DISTANCE(first, other))


def open_check(image, o):
    lent_image, user_data = lent(image), bytearray(64)
    room = (ctypes.c_char * 64).from_buffer(user_data)
    answer = OPEN_CHECK(*lent_image, *o)
    if USER_DATA(*lent_image, *o, room, 64) != answer:
        raise AssertionError("the two calls give different answers")
    return second.OpenCheck(answer, USER_FLAGS(*lent_image, *o), bytes(user_data))


def image_shape(image, o):
    call = (*lent(image), *o)
    return second.Shape(IMAGE_CAPACITY(*call), IMAGE_BUCKETS(*call), IMAGE_TOTAL(*call))


def lookup(image, o, key):
    call = (*lent(image), *o, *lent(key))
    answer, slot = LOOKUP(*call), LOOKUP_SLOT(*call)
    # The host reads the index in the image by the slot number.
    at = INDEX_OFFSET(*o, slot) if answer == 0 else 0
    index = bytes(image[at:at + o.index_size]) if answer == 0 else b""
    revision, buckets = LOOKUP_REVISION(*call), LOOKUP_BUCKETS(*call)
    agree(partial(LOOKUP_RESULTS, *call), (answer, slot, revision % 2**64, buckets))
    return second.Lookup(answer, slot, revision, buckets, index)


def lookup_results(image, o, key, results):
    return reported(partial(LOOKUP_RESULTS, *lent(image), *o, *lent(key)), results)


def places(o, slot):
    return TOTAL_SIZE(*o), KEY_OFFSET(*o, slot), INDEX_OFFSET(*o, slot)


def full_check(image, o):
    call = (*lent(image), *o)
    checked = second.FullCheck(
        FULL_CHECK(*call), FULL_CHECK_LIVE(*call), FULL_CHECK_TOMBSTONES(*call), FULL_CHECK_PROBES(*call))
    agree(partial(FULL_CHECK_RESULTS, *call), checked)
    return checked


def full_check_results(image, o, results):
    return reported(partial(FULL_CHECK_RESULTS, *lent(image), *o), results)


def listed(numbers, calls, all_of_them):
    """The three calls of a listing and the one for all, each on a copy of the lent list, which all leave alike."""
    rooms = [Lent(U32, numbers) for _ in calls]
    outcome = second.Listed(*(call(*room.slice) for call, room in zip(calls, rooms)))
    left = rooms[0].back()
    if not left == rooms[1].back() == rooms[2].back():
        raise AssertionError("the three calls leave different lists")
    agree(all_of_them, outcome, numbers, left)
    return outcome


def scan(image, o, skip, limit, numbers):
    start = (*lent(image), *o, skip, limit)
    *calls, all_of_them = (partial(call, *start) for call in (SCAN, SCAN_TOTAL, SCAN_WRITTEN, SCAN_RESULTS))
    return listed(numbers, calls, all_of_them)


def scan_results(image, o, skip, limit, numbers, results):
    return reported(partial(SCAN_RESULTS, *lent(image), *o, skip, limit), results, numbers)


def match(image, o, offset, bits, pattern, skip, limit, numbers):
    start = (*lent(image), *o, offset, bits, *lent(pattern), skip, limit)
    *calls, all_of_them = (partial(call, *start) for call in (MATCH, MATCH_TOTAL, MATCH_WRITTEN, MATCH_RESULTS))
    return listed(numbers, calls, all_of_them)


def match_results(image, o, offset, bits, pattern, skip, limit, numbers, results):
    return reported(partial(MATCH_RESULTS, *lent(image), *o, offset, bits, *lent(pattern), skip, limit), results, numbers)


def writing(call, image, *rest):
    """A call that changes a lent image in place, between guard bytes that every call leaves alone."""
    room = (ctypes.c_char * (len(image) + 2 * len(GUARDS))).from_buffer_copy(GUARDS + image + GUARDS)
    answer = call(ctypes.byref(room, len(GUARDS)), len(image), *rest)
    if room[:len(GUARDS)] != GUARDS or room[-len(GUARDS):] != GUARDS:
        raise AssertionError("the call wrote outside its image")
    image[:] = room[len(GUARDS):-len(GUARDS)]
    return answer


def create(buffer, o):
    return writing(CREATE, buffer, *o)


def begin(image, o):
    return writing(BEGIN, image, *o)


def checkpoint(image, o):
    return writing(CHECKPOINT, image, *o)


def invalidate(image, o):
    return writing(INVALIDATE, image, *o)


def set_user_fields(image, o, user_flags, user_data):
    return writing(SET_USER_FIELDS, image, *o, user_flags, *lent(user_data))


def commit(image, o, batch):
    return writing(COMMIT, image, *o, *lent(batch))
