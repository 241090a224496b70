"""The library zonewire in Python, by ctypes. Each function makes one call of include/zonewire.h, which says what the call does."""
import ctypes
from pathlib import Path

# The library that `make c` built, or else the one that is installed.
BUILT = Path(__file__).resolve().parents[2] / "build" / "libzonewire.so"
LIBRARY = ctypes.CDLL(str(BUILT) if BUILT.is_file() else "libzonewire.so")
SIMPLE, TABBED, MULTILINE = range(3)
PLAIN, STATIC, TREE, HASH = range(4)
IN = 1
UNFINISHED = 417


class Answer(ctypes.Structure):
    """What a call returns."""

    _fields_ = [("fault", ctypes.c_uint32), ("number", ctypes.c_size_t), ("count", ctypes.c_size_t)]


class Fault(Exception):
    """Why a call failed: its numbers, and its text."""

    def __init__(self, answer):
        self.fault, self.number = answer.fault, answer.number
        super().__init__(fault_text(answer.fault, answer.number))


def passed(value):
    """What C gets for an argument: a pointer and a length for octets."""
    return (ctypes.c_char_p(value), ctypes.c_size_t(len(value))) if isinstance(value, bytes) else (value,)


def call(name, *values):
    """Makes a call, and returns its answer."""
    function = getattr(LIBRARY, name)
    function.restype = Answer
    answer = function(*(it for value in values for it in passed(value)))
    if answer.fault:
        raise Fault(answer)
    return answer


def output_of(name, *values):
    """Makes a call that has an output, and returns that. The first call is for an output of usual size."""
    room = 4096
    while True:
        buffer = ctypes.create_string_buffer(room)
        answer = call(name, *values, buffer, ctypes.c_size_t(room))
        if answer.count <= room:
            return buffer.raw[: answer.count]
        room = answer.count


def fault_text(fault, number):
    """The text of a fault, by its numbers. It is empty if there is no such fault."""
    return output_of("zonewire_fault_text", ctypes.c_uint32(fault), ctypes.c_size_t(number)).decode()


def count(text, origin=b"", class_number=IN):
    """The number of records of the zone of a text."""
    return call("zonewire_count", text, origin, ctypes.c_uint16(class_number)).count


def printed(text, origin=b"", class_number=IN, layout=SIMPLE):
    """The zone of a text as it is printed in a layout."""
    return output_of("zonewire_print", text, origin, ctypes.c_uint16(class_number), ctypes.c_uint8(layout))


def canonical(text, origin=b"", class_number=IN):
    """The canonical octets of the zone of a text."""
    return output_of("zonewire_canonical", text, origin, ctypes.c_uint16(class_number))


def query(identifier, name, class_number=IN):
    """The query for a zone's transfer."""
    return output_of("zonewire_query", ctypes.c_uint16(identifier), name, ctypes.c_uint16(class_number))


def send(text, asking, origin=b"", class_number=IN, most=65535, spelling=TREE):
    """The stream that answers a query for the zone of a text."""
    words = ctypes.c_uint16(class_number), asking, ctypes.c_uint16(most), ctypes.c_uint8(spelling)
    return output_of("zonewire_send", text, origin, *words)


def receive(asking, stream, layout=SIMPLE):
    """The zone of a stream, as it is printed in a layout."""
    return output_of("zonewire_receive", asking, stream, ctypes.c_uint8(layout))
