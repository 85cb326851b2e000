"""Creates files for the cases of messages: images, scripts and listings that each cause one message."""
from support.dwarf_files import many_lines
from support.hostile import named

IMAGES = "tests/rvlook/images"
REGION = IMAGES + "/measure/region"
LARGE = (32 << 20) + 1  # bytes, one more than the limit of an image
LINES = 1000001  # one more than the limit of a script


class Files:
    """Writes the files into a folder."""
    LOOP = "1303130013031300\n6ff09fff\n"  # counts forever
    MANY = "b71201801303803e83a302009383130023a072001303f3ffe31803fe6f000000\n"  # adds one to 80011000 a thousand times

    def __init__(self, folder, elf):
        self.folder, self.region = folder, REGION
        self.script = self.write("script", "break man\n")
        self.loop = self.write("loop", self.LOOP)
        self.lines = {name: self.write(name, text + "\n") for name, text in (
            ("unknown", "stepp 4"), ("twice", "break trapped"), ("man", "break man"), ("behind", "break trapped@80040000"))}
        self.counter = self.write("counter", "b712018083a302009383130023a072006f000000\n")  # adds one to 80011000
        self.cycle = self.write("cycle", "732500b06f000000\n")  # reads mcycle
        self.spin = self.write("spin", "93c212006ff0dfff\n")  # inverts a bit of x5 forever
        self.key = self.write("key", "b758450a938838e473000000\n6f000000\n")
        self.text = self.write("text", "no image\n")
        self.marked = self.write("marked", "\xef\xbb\xbf6f000000\n")
        self.lines_of_script = self.write("lines", "\n" * LINES)
        source = self.write("own.c", "int own;\n")
        self.with_source = self.write("source.elf", named(source=source).decode("latin-1"))
        self.endless = self.write("endless.elf", many_lines(elf, 1000000).decode("latin-1"))
        self.cut = self.write("cut.elf", "\x7fELF")
        self.large = folder / "large"
        with open(self.large, "wb") as file:
            file.truncate(LARGE)
        self.compressed = self.write("compressed.elf", (elf[:36] + bytes([elf[36] | 1]) + elf[37:]).decode("latin-1"))

    def write(self, name, text):
        path = self.folder / name
        path.write_bytes(text.encode("latin-1"))
        return str(path)

    def without(self, module):
        """Returns a folder in which a module cannot be imported."""
        folder = self.folder / ("without_" + module)
        folder.mkdir(exist_ok=True)
        (folder / (module + ".py")).write_text("raise ImportError('it is not there')\n")
        return str(folder)
