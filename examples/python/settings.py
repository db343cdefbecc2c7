"""The first session of README.md, in Python: builds the archive of a text, asks it, edits it where it lies, and prints the
end of the text of the document that it then holds. The arguments are the paths of a shared library, made of cabinet.c and
the static library of crates/cabinet_c, and of the text."""

import ctypes
import sys

OK, SHORT, MISSING, WRONG = 0, 2, 11, 12


class Cabinet:
    """The calls of cabinet.h. Archives are of type bytearray; texts, lines and answers of type bytes."""

    def __init__(self, path):
        self.library = ctypes.CDLL(path)

    def call(self, name, *arguments):
        """Makes a call: bytes are passed as a pointer and a length."""
        passed = []
        for argument in arguments:
            if isinstance(argument, (bytes, bytearray)):
                kind = ctypes.c_char * len(argument)
                block = kind.from_buffer if isinstance(argument, bytearray) else kind.from_buffer_copy
                passed += [block(argument), ctypes.c_size_t(len(argument))]
            else:
                passed.append(ctypes.byref(argument))
        return getattr(self.library, name)(*passed)

    def given(self, name, *arguments, more=()):
        """Makes a call that gives bytes: once for their number, where they do not fit, and once for the bytes."""
        buffer, written = bytearray(64), ctypes.c_size_t()
        status = self.call(name, *arguments, buffer, written, *more)
        if status == SHORT:
            buffer = bytearray(written.value)
            status = self.call(name, *arguments, buffer, written, *more)
        return status, buffer[: written.value]

    def build(self, text):
        line = ctypes.c_size_t()
        status, archive = self.given("cabinet_build", text, more=[line])
        if status != OK:
            raise ValueError(f"cabinet_build: status {status}, line {line.value}")
        return archive

    def check(self, archive):
        status = self.call("cabinet_check", archive)
        if status != OK:
            raise ValueError(f"cabinet_check: status {status}")

    def ask(self, archive, line):
        status, answer = self.given("cabinet_ask", archive, line)
        if status not in (OK, MISSING, WRONG):
            raise ValueError(f"{line}: status {status}")
        return answer.decode()

    def set(self, archive, line):
        status = self.call("cabinet_set", archive, line)
        if status != OK:
            raise ValueError(f"{line}: status {status}")

    def load(self, archive):
        status, text = self.given("cabinet_load", archive)
        if status != OK:
            raise ValueError(f"cabinet_load: status {status}")
        return text.decode()


def main(library, path):
    cabinet = Cabinet(library)
    with open(path, "rb") as file:
        archive = cabinet.build(file.read())
    print("built", len(archive))
    # as of an archive from elsewhere; this one has just been built
    cabinet.check(archive)
    print(cabinet.ask(archive, b"get 'window 'width"), end="")
    cabinet.set(archive, b"set int 1440 'window 'width")
    print("ok")
    print(cabinet.ask(archive, b"get 'window 'width"), end="")
    print("\n".join(cabinet.load(archive).split("\n")[-3:-1]))


if __name__ == "__main__":
    main(*sys.argv[1:])
