"""A process on an emulated arm64 processor (Unicorn): images loaded as the kernel and dyld do, and a system that is written in Python.

Each image stands at a slide of its own. Its segments have their protections, so a write into code and a jump into data end the run; what
is const is read-only once its fixups are written. A function of the system is an address at which nothing is mapped: where the program
goes there, the processor stops, the function is done in Python, and the program goes on at its return address. The sources are
`mach-o/loader.h`, `mach-o/fixup-chains.h`, and for calls the procedure call standard of arm64 (AAPCS64) with Apple's changes to it
('Writing ARM64 code for Apple platforms').
"""

from posixpath import normpath
from struct import pack, unpack

from unicorn import UC_ARCH_ARM64, UC_MODE_ARM, Uc, UcError
from unicorn import arm64_const as registers
from unicorn.unicorn_const import UC_ERR_FETCH_PROT, UC_ERR_FETCH_UNMAPPED

import emulated_unwind
from emulated_image import EXECUTABLE, PAGE, READ, WRITE, Fault, want
from emulated_system import BOOTSTRAP, LIBRARIES, Ended, Jump

FETCHES = (UC_ERR_FETCH_PROT, UC_ERR_FETCH_UNMAPPED)
GENERAL = [getattr(registers, f"UC_ARM64_REG_X{number}") for number in range(31)]
DOUBLES = [getattr(registers, f"UC_ARM64_REG_D{number}") for number in range(32)]
SP, PC, LINK = registers.UC_ARM64_REG_SP, registers.UC_ARM64_REG_PC, 30
STACK, HEAP = 1 << 20, 1 << 20
LOWEST, HIGHEST = 1 << 32, 1 << 47
PATIENCE = 10_000_000


def pages(size):
    return -(-size // PAGE) * PAGE


class Places:
    """Ranges of addresses, each apart from all others, at places chosen by chance."""

    def __init__(self, chance):
        self.chance, self.taken = chance, []

    def take(self, start, size):
        free = all(start + size + PAGE <= other or end + PAGE <= start for other, end in self.taken)
        if free:
            self.taken.append((start, start + size))
        return free

    def choose(self, size, unit=PAGE):
        while True:
            start = self.chance.randrange(LOWEST, HIGHEST - size, unit)
            if self.take(start, size):
                return start


class Loaded:
    """An image at its slide, with the images and libraries that its ordinals name."""

    def __init__(self, path, image, slide):
        self.path, self.image, self.slide = path, image, slide
        self.libraries, self.copies = [], {}

    def base(self):
        return self.image.base + self.slide

    def holds(self, address):
        return any(segment.protection and segment.address <= address - self.slide < segment.end() for segment in self.image.segments)


class Process:
    """A program and its libraries: `files` has images by their paths. All addresses are chosen by `chance`, but for the program's slide."""

    def __init__(self, files, program, slide, chance):
        self.files, self.chance, self.places = files, chance, Places(chance)
        self.cpu = Uc(UC_ARCH_ARM64, UC_MODE_ARM)
        self.cpu.ctl_set_cpu_model(registers.UC_CPU_ARM64_MAX)
        # The system: its functions and variables by addresses and by names, and what it keeps of a program.
        self.functions, self.offered = {}, {}
        self.output, self.at_exit, self.sizes = bytearray(), [], {}
        self.thread, self.results = 0, {}
        self.thrown, self.caught = {}, []
        # The images by their paths, in the order in which they are loaded.
        self.loaded = {}
        self.program = self.load(program, slide)
        self.load_libraries()
        self.returned = self.places.choose(4, 4)
        self.heap, self.heap_end = self.memory(HEAP)
        self.get_variable = self.function(b"a thread-local variable's thunk", Process.thread_variable)
        for loaded in self.loaded.values():
            self.write_image(loaded)
        for loaded in self.loaded.values():
            self.prepare_variables(loaded)

    # Loading

    def load(self, path, slide=None):
        """Takes an image's range: the program's at its slide, a library's where there is room."""
        want(path in self.files, f"there is no file {path}")
        image = self.files[path]
        end = max(segment.end() for segment in image.segments)
        if slide is None:
            slide = self.places.choose(end - image.base) - image.base
        else:
            self.check_program(image)
            want(self.places.take(image.base + slide, end - image.base), "the program's place is taken")
        self.loaded[path] = Loaded(path, image, slide)
        return self.loaded[path]

    def check_program(self, image):
        zero = image.segment(b"__PAGEZERO")
        want(image.file_type == EXECUTABLE and image.entry is not None, "the program isn't an executable")
        want((zero.address, zero.size, zero.protection) == (0, image.base, 0) and zero.size >= 1 << 32, "page zero isn't kept free")

    def load_libraries(self):
        """Loads what each image asks for, breadth first; a library of the system is told by its install name."""
        waiting = [self.program]
        for loaded in waiting:
            for name, _ in loaded.image.libraries:
                if name in LIBRARIES:
                    loaded.libraries.append(name)
                    continue
                path = self.path_of(name, loaded)
                if path not in self.loaded:
                    waiting.append(self.load(path))
                loaded.libraries.append(self.loaded[path])

    def path_of(self, name, loaded):
        """The file of a library's name: @rpath stands for each run path of the image and of the program, in turn."""
        names = [name]
        if name.startswith(b"@rpath/"):
            names = [path + name[6:] for path in loaded.image.run_paths + self.program.image.run_paths]
        for folder, of in ((b"@loader_path", loaded), (b"@executable_path", self.program)):
            names = [name.replace(folder, of.path.rsplit(b"/", 1)[0], 1) for name in names]
        found = [name for name in map(normpath, names) if name in self.files]
        want(found, f"library not loaded: {name.decode()}")
        return found[0]

    def write_image(self, loaded):
        """Puts an image's segments into memory, with the fixups written."""
        texts = {segment.address: loaded.image.bytes_of(segment) for segment in loaded.image.segments}
        for fixup in loaded.image.fixups:
            start = loaded.image.segment_of(fixup.address).address
            place = fixup.address - start
            texts[start][place : place + 8] = pack("<Q", self.fixed(loaded, fixup))
        for segment in loaded.image.segments:
            if segment.protection and segment.size:
                protection = segment.protection & ~WRITE if segment.is_const() else segment.protection
                self.cpu.mem_map(segment.address + loaded.slide, segment.size, protection)
                self.cpu.mem_write(segment.address + loaded.slide, bytes(texts[segment.address]))

    def fixed(self, loaded, fixup):
        if fixup.number is None:
            return fixup.value + loaded.slide | fixup.high << 56
        wanted = loaded.image.imports[fixup.number]
        library = loaded.libraries[wanted.ordinal - 1]
        return self.address_of(library, wanted.name) + wanted.addend + fixup.value & (1 << 64) - 1

    def address_of(self, library, name):
        """The address of a name of an image or of a library of the system."""
        if isinstance(library, bytes):
            return self.system_address(library, name)
        found = self.exported(library, name)
        want(found is not None, f"symbol not found: {name.decode()} in {library.path.decode()}")
        return found

    def exported(self, loaded, name):
        """The address of a name that an image exports, itself or by a library that it reexports."""
        export = loaded.image.exports.get(name)
        if export is None:
            others = [other for other, (_, again) in zip(loaded.libraries, loaded.image.libraries) if again and isinstance(other, Loaded)]
            return next((found for found in (self.exported(other, name) for other in others) if found is not None), None)
        if export.ordinal is not None:
            return self.address_of(loaded.libraries[export.ordinal - 1], export.name or name)
        return export.value if export.is_absolute else loaded.base() + export.value

    def system_address(self, library, name):
        """A function or variable of the system, at an address that is chosen when it is first bound."""
        if (library, name) not in self.offered:
            offered = LIBRARIES[library]
            want(name in offered, f"symbol not found: {name.decode()} in {library.decode()}")
            is_function = callable(offered[name])
            self.offered[library, name] = self.function(name, offered[name]) if is_function else self.variable(offered[name])
        return self.offered[library, name]

    def function(self, name, action):
        address = self.places.choose(4, 4)
        self.functions[address] = name, action
        return address

    def variable(self, size):
        """A variable of the system: its words are pointers that lead nowhere, and each is another one."""
        place = self.memory(PAGE)[0] + self.chance.randrange(0, PAGE - size, 16)
        self.write(place, b"".join(pack("<Q", self.places.choose(8, 8)) for _ in range(size // 8)))
        return place

    def prepare_variables(self, loaded):
        """Sets the thunk and key of each descriptor of a thread-local variable."""
        for address in loaded.image.thread_variables():
            bound, key, offset = unpack("<3Q", self.read(address + loaded.slide, 24))
            want(bound == self.offered.get(BOOTSTRAP), f"the descriptor at {address:#x} isn't bound to {BOOTSTRAP[1].decode()}")
            want(key == 0 and offset < loaded.image.thread_template()[1], f"the descriptor at {address:#x} leads out of the template")
            self.write(address + loaded.slide, pack("<QQ", self.get_variable, loaded.base()))

    # Memory

    def memory(self, size):
        """New memory that may be read and written to: its start and end."""
        start = self.places.choose(pages(size))
        self.cpu.mem_map(start, pages(size), READ | WRITE)
        return start, start + size

    def allocate(self, size, alignment=16):
        start = -(-self.heap // alignment) * alignment
        self.heap = start + max(size, 1)
        want(self.heap <= self.heap_end, "the heap is full")
        self.sizes[start] = size
        return start

    def read(self, address, size):
        try:
            return bytes(self.cpu.mem_read(address, size))
        except UcError:
            raise Fault(f"the system reads {size} bytes at {self.told(address)}, where nothing is") from None

    def write(self, address, data):
        ranges = [(start, end + 1) for start, end, protection in self.cpu.mem_regions() if protection & WRITE]
        may = any(start <= address and address + len(data) <= end for start, end in ranges)
        want(may or not data, f"the system writes {len(data)} bytes at {self.told(address)}, where it may not")
        self.cpu.mem_write(address, bytes(data))

    def word(self, address):
        return unpack("<Q", self.read(address, 8))[0]

    def text(self, address):
        data = bytearray()
        while not data.endswith(b"\0"):
            data += self.read(address + len(data), 1)
        return bytes(data[:-1])

    def told(self, address):
        """An address in words: in which image it is, and how far from its base without slide."""
        for loaded in self.loaded.values():
            if loaded.holds(address):
                return f"{address - loaded.slide:#x} of {loaded.path.decode()}"
        return f"{address:#x}"

    # Running

    def get(self, number):
        return self.cpu.reg_read(GENERAL[number])

    def set(self, number, value):
        self.cpu.reg_write(GENERAL[number], value & (1 << 64) - 1)

    def call(self, function, *arguments):
        """Calls a function of the program, also out of one of the system, and answers what it returns."""
        link = self.get(LINK)
        for number, argument in enumerate(arguments):
            self.set(number, argument)
        self.set(LINK, self.returned)
        place = function
        while place != self.returned:
            place = self.go(place)
        self.set(LINK, link)
        return self.get(0)

    def go(self, place):
        """Runs until the program leaves its code; does what it asks of the system, and answers where it goes on."""
        try:
            self.cpu.emu_start(place, self.returned, count=PATIENCE)
            place = self.cpu.reg_read(PC)
            want(place == self.returned, f"the program runs too long, at {self.told(place)}")
        except UcError as error:
            place = self.cpu.reg_read(PC)
            if error.errno in FETCHES and place in self.functions:
                return self.serve(*self.functions[place])
            if place != self.returned:
                raise Fault(f"{error} at {self.told(place)}, called from {self.told(self.get(LINK))}") from None
        return place

    def serve(self, name, action):
        want(self.cpu.reg_read(SP) % 16 == 0, f"the stack isn't aligned where {name.decode()} is called")
        count = action.__code__.co_argcount - 1
        result = action(self, *(self.get(number) for number in range(count)))
        if isinstance(result, Jump):
            return result.place
        if result is not None:
            self.set(0, result)
        return self.get(LINK)

    def thread_variable(self, descriptor):
        """Where this thread's copy of a variable is; the copies are made when the first is asked for."""
        _, base, offset = unpack("<3Q", self.read(descriptor, 24))
        loaded = next(loaded for loaded in self.loaded.values() if loaded.base() == base)
        if self.thread not in loaded.copies:
            start, size, exponent = loaded.image.thread_template()
            loaded.copies[self.thread] = self.allocate(size, max(16, 1 << exponent))
            self.write(loaded.copies[self.thread], self.read(start + loaded.slide, size))
        return loaded.copies[self.thread] + offset

    def arguments(self):
        """What a program gets: the count, then lists of words, variables and the loader's own texts; each list ends with 0."""
        path = self.allocate(len(self.program.path) + 1)
        self.write(path, self.program.path + b"\0")
        lists = self.allocate(32)
        self.write(lists, pack("<4Q", path, 0, 0, 0))
        return 1, lists, lists + 16, lists + 24

    def initialize(self, loaded, arguments, done):
        """Runs the initializers of an image, behind those of the libraries that it asks for."""
        done.add(loaded.path)
        for library in loaded.libraries:
            if isinstance(library, Loaded) and library.path not in done:
                self.initialize(library, arguments, done)
        for offset in loaded.image.initializer_offsets():
            self.call(loaded.base() + offset, *arguments)

    def run(self):
        """What the program prints, and its status."""
        self.cpu.reg_write(SP, self.memory(STACK)[1] - 256)
        arguments = self.arguments()
        try:
            self.initialize(self.program, arguments, set())
            status = self.call(self.program.image.entry_address() + self.program.slide, *arguments)
            self.leave()
        except Ended as ended:
            status = ended.status
        return bytes(self.output), status & 0xFF

    def leave(self):
        """Calls what was given to `atexit`, the last first."""
        while self.at_exit:
            self.call(*self.at_exit.pop())

    # Exceptions

    def frame(self):
        """Where a function of the system goes back to, with the registers that calls keep."""
        general = {number: self.get(number) for number in range(19, 30)}
        doubles = {number: self.cpu.reg_read(DOUBLES[number]) for number in range(8, 16)}
        return emulated_unwind.Frame(self.get(LINK), self.cpu.reg_read(SP), general, doubles)

    def land(self, frame, landing, exception, selector):
        """Goes on at a landing pad, in its frame."""
        for number, value in frame.general.items():
            self.set(number, value)
        for number, value in frame.doubles.items():
            self.cpu.reg_write(DOUBLES[number], value)
        self.cpu.reg_write(SP, frame.sp)
        self.set(0, exception)
        self.set(1, selector)
        return Jump(landing)
