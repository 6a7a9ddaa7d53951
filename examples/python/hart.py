"""Calls of include/hart.h from Python, by ctypes: the search in bytes, and those of a device."""

import ctypes


class Frame(ctypes.Structure):
    """A frame, and where it stands in what was passed."""

    _fields_ = [
        ("start", ctypes.c_uint64), ("stop", ctypes.c_uint64), ("device_id", ctypes.c_uint32), ("expanded_type", ctypes.c_uint16),
        ("is_reply", ctypes.c_bool), ("is_primary", ctypes.c_bool), ("is_burst", ctypes.c_bool), ("is_unique", ctypes.c_bool),
        ("polling_address", ctypes.c_uint8), ("command", ctypes.c_uint8), ("expansion_len", ctypes.c_uint8),
        ("payload_len", ctypes.c_uint8), ("expansion", ctypes.c_uint8 * 3), ("payload", ctypes.c_uint8 * 255)]


class Search(ctypes.Structure):
    """What a search came to: how many bytes are used up, how many frames were found, and 0 or a fault."""

    _fields_ = [("used", ctypes.c_size_t), ("count", ctypes.c_size_t), ("fault", ctypes.c_uint8)]


class Finder:
    """Finds the frames of bytes as they come in, in whatever pieces."""

    AT_ONCE = 16

    def __init__(self, library="libhart.so"):
        self._find = ctypes.CDLL(library).hart_find_in_bytes
        self._find.restype = Search
        self._find.argtypes = [ctypes.c_char_p, ctypes.c_size_t, ctypes.c_bool, ctypes.POINTER(Frame), ctypes.c_size_t]
        self._frames = (Frame * self.AT_ONCE)()
        self._held = b""
        self.used = 0

    def _found(self, ended):
        """The frames that are decided now, with their places in all that was heard."""
        count = self.AT_ONCE
        while count == self.AT_ONCE:
            search = self._find(self._held, len(self._held), ended, self._frames, self.AT_ONCE)
            count = search.count
            for shown in self._frames[:count]:
                frame = Frame.from_buffer_copy(shown)
                frame.start += self.used
                frame.stop += self.used
                yield frame
            self._held = self._held[search.used:]
            self.used += search.used

    def hear(self, heard):
        """The frames that are decided by further bytes."""
        self._held += heard
        yield from self._found(False)

    def end(self):
        """The frames that are decided by the end of the bytes."""
        yield from self._found(True)


class Char(ctypes.Structure):
    """A character that was heard: its byte, and its fault bits, 0 for none."""

    _fields_ = [("byte", ctypes.c_uint8), ("faults", ctypes.c_uint8)]


class Outcome(ctypes.Structure):
    """How many bytes were written, and 0 or a fault."""

    _fields_ = [("len", ctypes.c_size_t), ("fault", ctypes.c_uint8)]


class Kept(ctypes.Structure):
    """What is kept of a device."""

    _fields_ = [("image", ctypes.c_uint8 * 86), ("image_len", ctypes.c_uint8), ("primary_cold_start", ctypes.c_bool),
                ("secondary_cold_start", ctypes.c_bool)]


class BenchDevice:
    """The bench device, as it is new or as an image says. Its identity, process and registers are filled and read by the library alone."""

    LONGEST = 287
    # Larger than each of the three structs, and aligned for each.
    ROOM = ctypes.c_uint64 * 64

    def __init__(self, library="libhart.so", image=None):
        self._calls = ctypes.CDLL(library)
        self._calls.hart_new_device.restype = self._calls.hart_hear.restype = Outcome
        self._identity, self._process, registers = self.ROOM(), self.ROOM(), self.ROOM()
        self._calls.hart_bench_identity(self._identity)
        self._calls.hart_bench_process(self._process)
        self._calls.hart_bench_registers(registers)
        self.kept = Kept()
        self._calls.hart_new_device(registers, ctypes.byref(self.kept))
        if image is not None:
            self.kept.image[:len(image)] = image
            self.kept.image_len = len(image)

    def restart(self):
        """The device was without power, and is on again."""
        self._calls.hart_restart(ctypes.byref(self.kept))

    def hear(self, heard):
        """The reply to what is heard at once, pairs of byte and fault bits; b"" is silence."""
        chars = (Char * max(len(heard), 1))(*heard)
        reply = (ctypes.c_uint8 * self.LONGEST)()
        said = self._calls.hart_hear(self._identity, self._process, chars, ctypes.c_size_t(len(heard)), ctypes.byref(self.kept),
                                     reply, ctypes.c_size_t(self.LONGEST))
        if said.fault:
            raise ValueError(f"fault {said.fault}")
        return bytes(reply[:said.len])
