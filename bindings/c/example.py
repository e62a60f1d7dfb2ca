"""Bundles two modules by ctypes: `python3 example.py libgutsirava.so`.

The shared library is made of the archive:

    cc -shared -o libgutsirava.so -Wl,--whole-archive libgutsirava_c.a -Wl,--no-whole-archive liblibc_c.a
"""
import ctypes
import json
import sys

NO_ROOM = 3


class Gutsirava:
    """The calls of the library; each gives a status and a text."""

    def __init__(self, path):
        self.library = ctypes.CDLL(path)

    def call(self, name, text, *more):
        """The answer of a function: it is called again where it has no room."""
        function = getattr(self.library, name)
        function.restype = ctypes.c_uint32
        written = ctypes.c_size_t(4 * len(text) + 4096)
        status = NO_ROOM
        while status == NO_ROOM:
            room = ctypes.create_string_buffer(written.value)
            size = ctypes.c_size_t(len(room))
            status = function(text, ctypes.c_size_t(len(text)), *more, room, size, ctypes.byref(written))
        return status, room.raw[: written.value].decode()

    def bundle_sources(self, files, entries, **config):
        request = {"files": files, "entries": entries, "config": config}
        status, answer = self.call("gutsirava_bundle_sources", json.dumps(request).encode())
        return status, json.loads(answer)

    def bundle(self, document):
        return self.call("gutsirava_bundle", json.dumps(document).encode())

    def form(self, source, is_common_js=False):
        return self.call("gutsirava_form", source.encode(), ctypes.c_bool(is_common_js))

    def text(self, form):
        return self.call("gutsirava_text", json.dumps(form).encode())


def main(path):
    library = Gutsirava(path)
    sources = {"main.js": "import { x } from './a'; use(x);", "a.js": "export const x = 1;"}
    status, answer = library.bundle_sources(sources, [["out", "main.js"]], module="Iife")
    print(status, answer["bundles"][0]["code"], end="")
    files = {name: json.loads(library.form(source)[1]) for name, source in sources.items()}
    document = {"files": files, "entries": [["out", "main.js"]]}
    status, answer = library.bundle(document)
    for bundle in json.loads(answer):
        print(status, bundle["name"])
        print(library.text(bundle["module"])[1], end="")
    del files["a.js"]
    print(*library.bundle(document), end="")
    print(*library.bundle({}), end="")
    print(*library.form("x = ;"), end="")
    status, answer = library.bundle_sources({"main.js": "x = ;"}, [["out", "main.js"]])
    for message in answer["messages"]:
        print(status, message["file"], message["line"], message["column"], message["text"])


if __name__ == "__main__":
    main(*sys.argv[1:])
