"""What the recall screen shows of an image, through the compiled library."""
import ctypes

import book


class Library:
    def __init__(self, path):
        self.library = ctypes.CDLL(path)
        for name in ("shown", "badgerdross_image_length"):
            getattr(self.library, name).restype = ctypes.c_size_t
        self.length = self.library.badgerdross_image_length(*[ctypes.c_size_t(n) for n in (book.PAGES, 4, 16, 20)])
        self.target = ctypes.create_string_buffer(book.PAGES * 64 * 64)
        self.words = (ctypes.c_uint64 * (self.length // 8))()

    def shown(self, image):
        """The answer of the mount, and the bytes of all lines."""
        ctypes.memmove(self.words, bytes(image), self.length)
        size = ctypes.c_size_t
        answer = self.library.shown(self.words, size(self.length), size(book.PAGES), self.target)
        return answer, self.target.raw if answer == 0 else b""
