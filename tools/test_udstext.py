"""Tests of udsformat, udstext and udsshow."""

import os
import random
import shlex
import shutil
import subprocess
import sys
import tempfile
import unittest

import udsformat
from udsformat import pack, unpack

TOOLS = os.path.dirname(os.path.realpath(__file__))
SAMPLES = os.path.join(os.path.dirname(TOOLS), "samples")

INTERFACE = "interface 10.2.0.5 mask 255.255.255.0\n"
HEADER_HEX = "554453 0001 0a020005 ffffff00"

# The example of document 01, its bytes written out by hand, and its output.
EXAMPLE = INTERFACE + """\
socket
bind 0 *:7000
datagram 10.2.0.9:6000 -> 10.2.0.5:7000 len 3
recvfrom 0
out
"""
EXAMPLE_HEX = """
55 44 53  00 01  0a 02 00 05  ff ff ff 00
01  00  00 00 00 00  00 00  00 00 00 00  00 00  00 00
02  00  00 00 00 00  1b 58  00 00 00 00  00 00  00 00
09  00  0a 02 00 09  17 70  0a 02 00 05  1b 58  00 03
06  00  00 00 00 00  00 00  00 00 00 00  00 00  00 00
0b  00  00 00 00 00  00 00  00 00 00 00  00 00  00 00
"""
EXAMPLE_OUTPUT = """\
1 0 0 -
2 0 - -
3 20 0 -
4 0 - 3
5 31 - -
"""

# Every step and its bytes, written out by hand.
STEPS = [
    ("socket", "01 00 00000000 0000 00000000 0000 0000"),
    ("bind 0 10.2.0.5:7000", "02 00 0a020005 1b58 00000000 0000 0000"),
    ("bind 15 *:0", "02 0f 00000000 0000 00000000 0000 0000"),
    ("connect 1 10.2.0.9:6000", "03 01 0a020009 1770 00000000 0000 0000"),
    ("connect 255 0.0.0.0:0", "03 ff 00000000 0000 00000000 0000 0000"),
    ("disconnect 2", "04 02 00000000 0000 00000000 0000 0000"),
    ("sendto 3 10.2.0.9:6000 len 3", "05 03 0a020009 1770 00000000 0000 0003"),
    ("sendto 3 0.0.0.0:6000 len 3", "05 03 00000000 1770 00000000 0000 0003"),
    ("sendto 3 10.2.0.9:0 len 3", "05 03 0a020009 0000 00000000 0000 0003"),
    ("sendto 3 peer len 65535", "05 03 00000000 0000 00000000 0000 ffff"),
    ("recvfrom 4", "06 04 00000000 0000 00000000 0000 0000"),
    ("close 5", "07 05 00000000 0000 00000000 0000 0000"),
    ("reuse 6 on", "08 06 00000000 0001 00000000 0000 0000"),
    ("reuse 6 off", "08 06 00000000 0000 00000000 0000 0000"),
    (
        "datagram 255.255.255.255:65535 -> 0.0.0.0:0 len 0",
        "09 00 ffffffff ffff 00000000 0000 0000",
    ),
    (
        "notice 10.2.0.5:7000 -> 10.2.0.9:6000",
        "0a 00 0a020005 1b58 0a020009 1770 0000",
    ),
    ("out", "0b 00 00000000 0000 00000000 0000 0000"),
    ("exit", "0c 00 00000000 0000 00000000 0000 0000"),
]
EVERY_STEP = INTERFACE + "".join(text + "\n" for text, _ in STEPS)

# Bytes that the plain words cannot carry, as text.
ESCAPES = [
    ("header none\n", ""),
    ("header 55\n", "55"),
    ("header 554453 0001 0a020005 ffffff\n", "554453 0001 0a020005 ffffff"),
    ("header 554453 0002 0a020005 ffffff00\n", "554453 0002 0a020005 ffffff00"),
    ("header 554453 0002 0a020005 ffffff00\nout\n",
     "554453 0002 0a020005 ffffff00" + STEPS[-2][1]),
    (INTERFACE + "raw 0d 05 00000000 0000 00000000 0000 0000  # kind 13, unknown\n",
     HEADER_HEX + "0d 05 00000000 0000 00000000 0000 0000"),
    (INTERFACE + "raw 00 00 00000000 0000 00000000 0000 0000  # kind 0, unknown\n",
     HEADER_HEX + "00 00 00000000 0000 00000000 0000 0000"),
    (INTERFACE + "raw 01 05 00000000 0000 00000000 0000 0000"
     "  # socket, with extra bits\n",
     HEADER_HEX + "01 05 00000000 0000 00000000 0000 0000"),
    (INTERFACE + "raw 08 00 00000000 0002 00000000 0000 0000"
     "  # reuse, with extra bits\n",
     HEADER_HEX + "08 00 00000000 0002 00000000 0000 0000"),
    (INTERFACE + "raw 0a 00 0a020005 1b58 0a020009 1770 0001"
     "  # notice, with extra bits\n",
     HEADER_HEX + "0a 00 0a020005 1b58 0a020009 1770 0001"),
    (INTERFACE + "out\ntail 0b\n", HEADER_HEX + STEPS[-2][1] + "0b"),
    (INTERFACE + "tail 0b 00 00000000 0000 00000000 0000 00\n",
     HEADER_HEX + "0b 00 00000000 0000 00000000 0000 00"),
]

STEP_NAMES = (
    "a step (socket, bind, connect, disconnect, sendto, recvfrom, close, reuse,"
    " datagram, notice, out, exit, raw, tail)"
)
FIRST = "interface ADDRESS mask MASK, or header HEX"
END = "the end of the line"

# First lines that are refused: the text, what is expected, what is found.
BAD_HEADERS = [
    ("socket", FIRST, '"socket"'),
    ("interface", "ADDRESS", END),
    ("interface 10.2.0", "ADDRESS", '"10.2.0"'),
    ("interface 10.2.0.5.6 mask 0.0.0.0", "ADDRESS", '"10.2.0.5.6"'),
    ("interface 10.2.0.5/24", "ADDRESS", '"10.2.0.5/24"'),
    ("interface 10.2.0.5", "mask", END),
    ("interface 10.2.0.5 255.255.255.0", "mask", '"255.255.255.0"'),
    ("interface 10.2.0.5 mask", "MASK", END),
    ("interface 10.2.0.5 mask 24", "MASK", '"24"'),
    ("interface 10.2.0.5 mask 255.0.0.0 id", END, '"id"'),
    ("header", "1 to 13 bytes in hex", "0 bytes"),
    ("header none 00", "pairs of hex digits", '"none"'),
    ("header " + 14 * "00", "1 to 13 bytes in hex", "14 bytes"),
]

# Steps that are refused, likewise.
BAD_STEPS = [
    ("bnid 0 *:7000", STEP_NAMES, '"bnid"'),
    ("Socket", STEP_NAMES, '"Socket"'),
    ('"out"', STEP_NAMES, '"\\"out\\""'),
    (INTERFACE.strip(), STEP_NAMES, '"interface"'),
    ("header none", STEP_NAMES, '"header"'),
    ("socket 0", END, '"0"'),
    ("close", "DESCRIPTOR (0 to 255)", END),
    ("close 256", "DESCRIPTOR (0 to 255)", '"256"'),
    ("close -1", "DESCRIPTOR (0 to 255)", '"-1"'),
    ("close 00", "DESCRIPTOR (0 to 255)", '"00"'),
    ("close 1_0", "DESCRIPTOR (0 to 255)", '"1_0"'),
    ("close \u0663", "DESCRIPTOR (0 to 255)", '"\u0663"'),
    ("close " + 5000 * "1", "DESCRIPTOR (0 to 255)", f'"{5000 * "1"}"'),
    ("bind 0", "ADDRESS:PORT or *:PORT", END),
    ("bind 0 7000", "ADDRESS:PORT or *:PORT", '"7000"'),
    ("bind 0 *", "ADDRESS:PORT or *:PORT", '"*"'),
    ("bind 0 **:7000", "ADDRESS:PORT or *:PORT", '"**:7000"'),
    ("connect 0 10.2.0.300:7", "ADDRESS:PORT", '"10.2.0.300:7"'),
    ("connect 0 10.2.0.9", "ADDRESS:PORT", '"10.2.0.9"'),
    ("connect 0 10.2.0.9:", "ADDRESS:PORT", '"10.2.0.9:"'),
    ("connect 0 10.2.0.09:7", "ADDRESS:PORT", '"10.2.0.09:7"'),
    ("connect 0 10.2.0.9:65536", "ADDRESS:PORT", '"10.2.0.9:65536"'),
    ("connect 0 *:6000", "ADDRESS:PORT", '"*:6000"'),
    ("connect 0 peer", "ADDRESS:PORT", '"peer"'),
    ("sendto 0 *:6000 len 3", "ADDRESS:PORT or peer", '"*:6000"'),
    ("sendto 0 len 3", "ADDRESS:PORT or peer", '"len"'),
    ("sendto 0 peer", "len", END),
    ("sendto 0 peer 3", "len", '"3"'),
    ("sendto 0 peer len", "LENGTH (0 to 65535)", END),
    ("sendto 0 peer len 65536", "LENGTH (0 to 65535)", '"65536"'),
    ("reuse 0", "on or off", END),
    ("reuse 0 1", "on or off", '"1"'),
    ("datagram 1.2.3.4:5 1.2.3.4:6 len 3", "->", '"1.2.3.4:6"'),
    ("datagram 1.2.3.4:5 -> 1.2.3.4 len 3", "ADDRESS:PORT", '"1.2.3.4"'),
    ("datagram 1.2.3.4:5 -> 1.2.3.4:6", "len", END),
    ("notice 1.2.3.4:5 -> 1.2.3.4:6 len 3", END, '"len"'),
    ("raw", "16 bytes in hex", "0 bytes"),
    ("raw 0d", "16 bytes in hex", "1 byte"),
    ("raw " + 17 * "00", "16 bytes in hex", "17 bytes"),
    ("raw 0d0", "pairs of hex digits", '"0d0"'),
    ("raw 0g", "pairs of hex digits", '"0g"'),
    ("tail", "1 to 15 bytes in hex", "0 bytes"),
    ("tail " + 16 * "00", "1 to 15 bytes in hex", "16 bytes"),
]


class PackTest(unittest.TestCase):
    def test_example_of_document_01(self):
        self.assertEqual(pack(EXAMPLE.encode()), bytes.fromhex(EXAMPLE_HEX))

    def test_bytes_of_every_step(self):
        self.assertEqual({bytes.fromhex(data)[0] for _, data in STEPS}, set(range(1, 13)))
        for text, data in STEPS:
            with self.subTest(text):
                script = pack(f"{INTERFACE}{text}\n".encode())
                self.assertEqual(script, bytes.fromhex(HEADER_HEX + data))

    def test_words_with_the_same_bytes(self):
        pairs = [
            ("bind 0 0.0.0.0:7000", "bind 0 *:7000"),
            ("sendto 0 0.0.0.0:0 len 3", "sendto 0 peer len 3"),
            ("raw 0B" + 15 * " 00", "raw 0b" + 15 * "00"),
            ("raw 0b" + 15 * "00", "out"),
            ("tail 0b 00", "tail 0b00"),
        ]
        for one, other in pairs:
            with self.subTest(one):
                self.assertEqual(pack((INTERFACE + one).encode()),
                                 pack((INTERFACE + other).encode()))

    def test_comments_and_spacing(self):
        text = (
            "\ufeff# caf\u00e9\r\n\r\n  interface\t10.2.0.5  mask 255.255.255.0# mask\r\n"
            "\n\t\n socket # one\n#out\nbind 0 *:7000\n"
            "datagram 10.2.0.9:6000  ->  10.2.0.5:7000  len  3\nrecvfrom 0\nout"
        )
        self.assertEqual(pack(text.encode()), bytes.fromhex(EXAMPLE_HEX))


class RoundTripTest(unittest.TestCase):
    def same(self, script):
        """The script's text, checked to pack to the script again."""
        text = unpack(script)
        self.assertEqual(pack(text), script, text)
        return text

    def test_every_step(self):
        self.assertEqual(self.same(pack(EVERY_STEP.encode())), EVERY_STEP.encode())

    def test_every_escape(self):
        for text, data in ESCAPES:
            with self.subTest(text):
                self.assertEqual(self.same(bytes.fromhex(data)), text.encode())

    def test_every_cut_of_a_script(self):
        script = pack(EVERY_STEP.encode())
        for length in range(len(script)):
            self.same(script[:length])

    def test_every_changed_byte_of_a_script(self):
        script = pack(EVERY_STEP.encode())
        for place in range(len(script)):
            for value in (0, 1, 2, 13, 255):
                self.same(script[:place] + bytes([value]) + script[place + 1:])

    def test_every_kind(self):
        for kind in range(256):
            step = bytes([kind]) + bytes(15)
            text = self.same(bytes.fromhex(HEADER_HEX) + step).decode()
            self.assertEqual("raw" in text, not 1 <= kind <= 12, text)

    def test_random_bytes(self):
        chance = random.Random(1)
        for _ in range(5000):
            self.same(random_bytes(chance, chance.randrange(100)))

    def test_random_bytes_behind_a_header(self):
        chance = random.Random(2)
        for _ in range(5000):
            self.same(bytes.fromhex(HEADER_HEX) + random_bytes(chance, chance.randrange(100)))

    def test_random_fields(self):
        chance = random.Random(3)
        for _ in range(5000):
            steps = b"".join(random_step(chance) for _ in range(chance.randrange(6)))
            tail = random_bytes(chance, chance.randrange(16))
            self.same(bytes.fromhex(HEADER_HEX) + steps + tail)

    def test_random_text(self):
        chance = random.Random(4)
        for _ in range(3000):
            text = random_text(chance).encode()
            self.assertEqual(self.same(pack(text)), text)

    def test_script_past_the_last_step_that_is_read(self):
        steps = (udsformat.STEP_LIMIT + 1) * bytes.fromhex(STEPS[-2][1])
        text = self.same(bytes.fromhex(HEADER_HEX) + steps)
        self.assertEqual(text.count(b"out\n"), udsformat.STEP_LIMIT + 1)


def random_bytes(chance, length):
    return bytes(chance.randrange(256) for _ in range(length))


def random_step(chance):
    """A step whose fields are often 0, so that plain and raw ones both come."""
    widths = udsformat.STEP_WIDTHS[1:]
    fields = [random_bytes(chance, width) if chance.random() < 0.3 else bytes(width)
              for width in widths]
    return bytes([chance.randrange(15)]) + b"".join(fields)


def random_text(chance):
    """Text of plain steps, as unpack would write it."""
    def address():
        return ".".join(str(chance.randrange(1, 256)) for _ in range(4))

    def pair():
        return f"{address()}:{chance.randrange(65536)}"

    def length():
        return f"len {chance.choice([0, 3, 512, 513, chance.randrange(65536)])}"

    def step():
        place = chance.choice([chance.randrange(16), chance.randrange(256)])
        return chance.choice([
            "socket",
            f"bind {place} {pair()}",
            f"bind {place} *:{chance.randrange(65536)}",
            f"connect {place} {pair()}",
            f"disconnect {place}",
            f"sendto {place} {pair()} {length()}",
            f"sendto {place} peer {length()}",
            f"recvfrom {place}",
            f"close {place}",
            f"reuse {place} {chance.choice(['on', 'off'])}",
            f"datagram {pair()} -> {pair()} {length()}",
            f"notice {pair()} -> {pair()}",
            "out",
            "exit",
        ])

    lines = [f"interface {address()} mask {address()}"]
    lines += [step() for _ in range(chance.randrange(12))]
    return "".join(line + "\n" for line in lines)


class TextErrorTest(unittest.TestCase):
    def refused(self, text, message):
        with self.assertRaises(udsformat.TextError) as caught:
            pack(text)
        self.assertEqual(str(caught.exception), message)

    def test_empty_text(self):
        for text in (b"", b"\n\n", b"# nothing\n"):
            self.refused(text, f"line 1: expected {FIRST}, found the end of the text")

    def test_headers(self):
        for text, expected, found in BAD_HEADERS:
            with self.subTest(text):
                self.refused(f"# first\n\n{text}\nout\n".encode(),
                             f"line 3: expected {expected}, found {found}")

    def test_steps(self):
        for text, expected, found in BAD_STEPS:
            with self.subTest(text):
                self.refused(f"{INTERFACE}\nout\n# fourth\n{text}\nout\n".encode(),
                             f"line 5: expected {expected}, found {found}")

    def test_words_behind_the_end(self):
        self.refused(b"header 5544\nsocket\n",
                     'line 2: expected nothing after a header under 13 bytes, found "socket"')
        self.refused(b"header none\n\ntail 00\n",
                     'line 3: expected nothing after a header under 13 bytes, found "tail"')
        self.refused(f"{INTERFACE}tail 0b\nout\n".encode(),
                     'line 3: expected nothing after tail, found "out"')
        self.refused(f"{INTERFACE}tail 0b\ntail 0b\n".encode(),
                     'line 3: expected nothing after tail, found "tail"')

    def test_other_bytes_than_text(self):
        self.refused(b"\xff\n", "line 1: expected text in UTF-8, found other bytes")
        self.refused(INTERFACE.encode() + b"out # \xe9\n",
                     "line 2: expected text in UTF-8, found other bytes")


class AnswerTest(unittest.TestCase):
    def test_every_number_has_words(self):
        self.assertEqual(set(udsformat.ANSWERS), {*range(19), *range(20, 33)})

    def test_words(self):
        cases = [
            ((0, "-", "-"), "0 done"),
            ((0, "7", "-"), "0 done, descriptor 7"),
            ((0, "-", "0"), "0 done, 0 bytes"),
            ((0, "-", "1"), "0 done, 1 byte"),
            ((20, "3", "-"), "20 delivered to 3"),
            ((21, "15", "-"), "21 dropped, the queue of 15 is full"),
            ((30, "-", "512"), "30 emitted, 512 bytes"),
        ]
        for line, words in cases:
            self.assertEqual(udsformat.answer_words(*line), words)


class ToolTest(unittest.TestCase):
    """A temporary folder, and a way to run a tool in it."""

    def setUp(self):
        folder = tempfile.TemporaryDirectory()
        self.addCleanup(folder.cleanup)
        self.folder = folder.name

    def path(self, name):
        return os.path.join(self.folder, name)

    def put(self, name, data):
        with open(self.path(name), "wb") as file:
            file.write(data)
        return self.path(name)

    def get(self, name):
        with open(self.path(name), "rb") as file:
            return file.read()

    def run_tool(self, *words, given=b"", tools=TOOLS, **variables):
        """Run a tool with no UDS in its environment but the one given here."""
        environment = {**os.environ, **variables}
        if "UDS" not in variables:
            environment.pop("UDS", None)
        return subprocess.run(
            [sys.executable, os.path.join(tools, words[0]), *words[1:]],
            input=given, env=environment, cwd=self.folder,
            stdout=subprocess.PIPE, stderr=subprocess.PIPE,
        )

    def expect(self, done, status, out=None, error=None):
        self.assertEqual(done.returncode, status, done)
        if out is not None:
            self.assertEqual(done.stdout, out)
        if error is not None:
            self.assertEqual(done.stderr.decode(), error)


class UdstextTest(ToolTest):
    SCRIPT = bytes.fromhex(EXAMPLE_HEX)

    def test_standard_input_and_output(self):
        self.expect(self.run_tool("udstext", "pack", given=EXAMPLE.encode()), 0, self.SCRIPT, "")
        self.expect(self.run_tool("udstext", "unpack", given=self.SCRIPT), 0, EXAMPLE.encode(), "")
        done = self.run_tool("udstext", "pack", "-", "-o", "-", given=EXAMPLE.encode())
        self.expect(done, 0, self.SCRIPT, "")

    def test_files(self):
        self.put("a.txt", EXAMPLE.encode())
        self.expect(self.run_tool("udstext", "pack", "a.txt"), 0, self.SCRIPT, "")
        self.expect(self.run_tool("udstext", "pack", "a.txt", "-o", "a.uds"), 0, b"", "")
        self.assertEqual(self.get("a.uds"), self.SCRIPT)
        self.expect(self.run_tool("udstext", "unpack", "a.uds", "-o", "b.txt"), 0, b"", "")
        self.assertEqual(self.get("b.txt"), EXAMPLE.encode())

    def test_any_bytes_unpack(self):
        for script in (b"", b"\n", bytes(range(256))):
            text = self.run_tool("udstext", "unpack", given=script)
            self.expect(text, 0, error="")
            self.expect(self.run_tool("udstext", "pack", given=text.stdout), 0, script, "")

    def test_bad_text(self):
        text = f"{INTERFACE}connect 0 10.2.0.300:7\n".encode()
        message = 'line 2: expected ADDRESS:PORT, found "10.2.0.300:7"\n'
        self.expect(self.run_tool("udstext", "pack", given=text), 2, b"", f"udstext: {message}")
        self.put("a.txt", text)
        done = self.run_tool("udstext", "pack", "a.txt", "-o", "a.uds")
        self.expect(done, 2, b"", f"udstext: a.txt: {message}")
        self.assertFalse(os.path.exists(self.path("a.uds")))

    def test_files_that_cannot_be_used(self):
        self.expect(self.run_tool("udstext", "pack", "none.txt"), 2, b"",
                    "udstext: cannot read none.txt: No such file or directory\n")
        done = self.run_tool("udstext", "unpack", "-o", "none/a.txt")
        self.expect(done, 2, b"", "udstext: cannot write none/a.txt: No such file or directory\n")

    def test_reader_that_leaves(self):
        self.put("a.uds", bytes(1000000))
        words = [sys.executable, os.path.join(TOOLS, "udstext"), "unpack", self.path("a.uds")]
        with subprocess.Popen(words, stdout=subprocess.PIPE, stderr=subprocess.PIPE) as running:
            running.stdout.close()
            self.assertEqual(running.stderr.read(), b"")
        self.assertEqual(running.returncode, 1)

    def test_bad_usage(self):
        for words in ([], ["turn"], ["pack", "a", "b"], ["pack", "--fast"], ["pack", "-o"]):
            done = self.run_tool("udstext", *words)
            self.expect(done, 2, b"")
            self.assertIn(b"usage: udstext", done.stderr)

    def test_help(self):
        for words in (["--help"], ["pack", "--help"], ["unpack", "--help"]):
            done = self.run_tool("udstext", *words)
            self.expect(done, 0, error="")
            self.assertIn(b"udstext pack morning.txt -o morning.uds", done.stdout)

    def test_help_has_every_form(self):
        text = self.run_tool("udstext", "--help").stdout.decode()
        for form in udsformat.STEP_FORMS.values():
            self.assertIn(f"\n  {form.split()[0]}", text)
        for word in ("header", "raw", "tail"):
            self.assertIn(f"\n  {word} ", text)


class UdsshowTest(ToolTest):
    EXAMPLE_ROWS = """\
   interface 10.2.0.5 mask 255.255.255.0
1  socket                                          0 done, descriptor 0
2  bind 0 *:7000                                   0 done
3  datagram 10.2.0.9:6000 -> 10.2.0.5:7000 len 3   20 delivered to 0
4  recvfrom 0                                      0 done, 3 bytes
5  out                                             31 nothing to send
"""

    def stub(self, output, status=0, name="stub.py"):
        """The words of a program that keeps its input and prints the output."""
        self.put(name, (
            "import sys\n"
            f"open({self.path('seen')!r}, 'wb').write(sys.stdin.buffer.read())\n"
            f"sys.stdout.write({output!r})\n"
            f"sys.exit({status})\n"
        ).encode())
        return shlex.join([sys.executable, self.path(name)])

    def show(self, text, output, status=0):
        """Show a script, given as text, with a program that prints the output."""
        program = self.stub(output, status)
        return self.run_tool("udsshow", "--program", program, given=pack(text.encode()))

    def failed(self, done, rows, message):
        error = f"udsshow: the program failed: {message}\n"
        self.expect(done, 1, rows.encode(), error)

    def test_example(self):
        done = self.show(EXAMPLE, EXAMPLE_OUTPUT)
        self.expect(done, 0, self.EXAMPLE_ROWS.encode(), "")
        self.assertEqual(self.get("seen"), bytes.fromhex(EXAMPLE_HEX))

    def test_ways_to_give_the_script(self):
        program = self.stub(EXAMPLE_OUTPUT)
        script = bytes.fromhex(EXAMPLE_HEX)
        self.put("a.uds", script)
        for name in ("a.txt", "text"):
            self.put(name, EXAMPLE.encode())
        for words, given in [
            (["a.uds"], b""),
            (["a.txt"], b""),
            (["--text", "text"], b""),
            (["--text"], EXAMPLE.encode()),
            (["-"], script),
        ]:
            with self.subTest(words):
                done = self.run_tool("udsshow", *words, given=given, UDS=program)
                self.expect(done, 0, self.EXAMPLE_ROWS.encode(), "")
                self.assertEqual(self.get("seen"), script)

    def test_program_words_come_before_the_variable(self):
        good, other = self.stub(EXAMPLE_OUTPUT), self.stub("", 5, "other.py")
        script = bytes.fromhex(EXAMPLE_HEX)
        done = self.run_tool("udsshow", "--program", good, given=script, UDS=other)
        self.expect(done, 0, self.EXAMPLE_ROWS.encode(), "")

    def test_default_is_run_beside_the_tools(self):
        tools = self.path("tools")
        os.mkdir(tools)
        for name in ("udsshow", "udsformat.py"):
            shutil.copy(os.path.join(TOOLS, name), tools)
        words = self.stub(EXAMPLE_OUTPUT)
        os.chmod(self.put("run", f"#!/bin/sh\nexec {words}\n".encode()), 0o755)
        for variables in ({}, {"UDS": ""}):
            done = self.run_tool("udsshow", given=bytes.fromhex(EXAMPLE_HEX),
                                 tools=tools, **variables)
            self.expect(done, 0, self.EXAMPLE_ROWS.encode(), "")
        self.assertEqual(sorted(os.listdir(tools)), ["udsformat.py", "udsshow"])

    def test_closing_lines_of_the_header(self):
        self.expect(self.show("header none", "bad header\n"), 0,
                    b"  header none   bad header: not UDS, version 1,"
                    b" address and mask in 13 bytes\n", "")
        done = self.show("interface 127.0.0.1 mask 255.0.0.0\nsocket\nout\n", "bad interface\n")
        self.expect(done, 0, (
            "  interface 127.0.0.1 mask 255.0.0.0   "
            "bad interface: the address is martian or loopback\n"
            "  not run: 2 more\n").encode(), "")

    def test_closing_lines_of_a_step(self):
        done = self.show(f"{INTERFACE}out\ntail 0b00\n", "1 31 - -\n2 short\n")
        self.expect(done, 0, (
            "   interface 10.2.0.5 mask 255.255.255.0\n"
            "1  out                                     31 nothing to send\n"
            "2  tail 0b 00                              "
            "short: under 16 bytes are left for this step\n").encode(), "")
        done = self.show(f"{INTERFACE}raw 0d{15 * '00'}\nout\n", "1 bad\n")
        self.expect(done, 0, (
            "   interface 10.2.0.5 mask 255.255.255.0\n"
            "1  raw 0d 00 00000000 0000 00000000 0000 0000  # kind 13, unknown   "
            "bad: no step has this kind\n"
            "   not run: 1 more\n").encode(), "")

    def test_script_without_steps(self):
        self.expect(self.show(INTERFACE, ""), 0,
                    b"  interface 10.2.0.5 mask 255.255.255.0\n", "")

    def test_steps_past_the_last_that_is_read(self):
        limit = udsformat.STEP_LIMIT
        output = "".join(f"{number} 31 - -\n" for number in range(1, limit + 1))
        done = self.show(INTERFACE + (limit + 2) * "out\n", output)
        self.expect(done, 0, error="")
        rows = done.stdout.decode().split("\n")
        self.assertEqual(rows[-3].split(), [str(limit), "out", "31", "nothing", "to", "send"])
        self.assertEqual(rows[-2:], ["       not run: 2 more", ""])

    def test_wrong_lines(self):
        head = "   interface 10.2.0.5 mask 255.255.255.0\n"
        first = "1  out                                     31 nothing to send\n"
        wanted = "expected a line for step 2, found "
        end = "the end of the output"
        for output, message in [
            ("1 31 - -\n", wanted + end),
            ("1 31 - -\n2 31 - -", wanted + r'"2 31 - -"'),
            ("1 31 - -\n3 31 - -\n", wanted + r'"3 31 - -\n"'),
            ("1 31 - -\n2 31 -\n", wanted + r'"2 31 -\n"'),
            ("1 31 - -\n2 031 - -\n", wanted + r'"2 031 - -\n"'),
            ("1 31 - -\n2 31 - -\r\n", wanted + r'"2 31 - -\r\n"'),
            ("1 31 - -\nbad header\n", wanted + r'"bad header\n"'),
            ("1 31 - -\n3 short\n", wanted + r'"3 short\n"'),
            ("1 31 - -\n2 19 - -\n", "expected a known answer to step 2, found 19"),
        ]:
            with self.subTest(output):
                done = self.show(f"{INTERFACE}out\nout\n", output)
                self.failed(done, head + first, message)

    def test_bad_header_left_unsaid(self):
        for output, found in [
            ("", "the end of the output"),
            ("1 0 0 -\n", r'"1 0 0 -\n"'),
        ]:
            self.failed(self.show("header 55\n", output), "  header 55\n",
                        f'expected "bad header", found {found}')

    def test_lines_behind_the_end(self):
        head = "   interface 10.2.0.5 mask 255.255.255.0\n"
        self.failed(self.show(f"{INTERFACE}out\n", "1 31 - -\n2 31 - -\n"),
                    head + "1  out                                     31 nothing to send\n",
                    r'expected the end of the output, found "2 31 - -\n"')
        self.failed(self.show("header 55\n", "bad header\n1 31 - -\n"),
                    "  header 55   bad header: not UDS, version 1, address and mask in 13 bytes\n",
                    r'expected the end of the output, found "1 31 - -\n"')

    def test_status_of_the_program(self):
        self.failed(self.show(EXAMPLE, EXAMPLE_OUTPUT, 3), self.EXAMPLE_ROWS,
                    "it ended with status 3")
        self.failed(self.show(INTERFACE + "out\n", "", 3),
                    "  interface 10.2.0.5 mask 255.255.255.0\n",
                    "expected a line for step 1, found the end of the output;"
                    " it ended with status 3")

    def test_program_ended_by_a_signal(self):
        self.put("stub.py", b"import os\nos.kill(os.getpid(), 9)\n")
        program = shlex.join([sys.executable, "stub.py"])
        done = self.run_tool("udsshow", "--program", program, given=pack(INTERFACE.encode()))
        self.failed(done, "  interface 10.2.0.5 mask 255.255.255.0\n", "it was ended by signal 9")

    def test_program_that_cannot_be_started(self):
        done = self.run_tool("udsshow", "--program", "./none", given=bytes.fromhex(EXAMPLE_HEX))
        self.expect(done, 1, b"", "udsshow: cannot start ./none: No such file or directory\n")

    def test_program_that_leaves_its_input(self):
        self.put("stub.py", b"print('1 bad')\n")
        program = shlex.join([sys.executable, "stub.py"])
        script = pack((INTERFACE + f"raw {16 * '00'}\n" + 20000 * "out\n").encode())
        done = self.run_tool("udsshow", "--program", program, given=script)
        self.expect(done, 0, error="")
        self.assertIn(b"not run: 20000 more", done.stdout)

    def test_bad_text(self):
        self.put("a.txt", b"socket\n")
        done = self.run_tool("udsshow", "a.txt", UDS=self.stub(""))
        self.expect(done, 2, b"",
                    f'udsshow: a.txt: line 1: expected {FIRST}, found "socket"\n')
        self.assertFalse(os.path.exists(self.path("seen")))

    def test_bad_usage(self):
        for words, message in [
            (["a", "b"], "usage: udsshow"),
            (["--fast"], "usage: udsshow"),
            (["--program", ""], "udsshow: the program's words are empty"),
            (["--program", "'"], "udsshow: cannot split the program's words"),
            (["none.uds"], "udsshow: cannot read none.uds: No such file or directory"),
        ]:
            with self.subTest(words):
                done = self.run_tool("udsshow", *words)
                self.expect(done, 2, b"")
                self.assertIn(message, done.stderr.decode())

    def test_help(self):
        done = self.run_tool("udsshow", "--help")
        self.expect(done, 0, error="")
        self.assertIn(b"udsshow --text < morning.txt", done.stdout)


@unittest.skipUnless(os.path.isdir(SAMPLES), "no samples beside the tools")
class SampleTest(ToolTest):
    def sample(self, name):
        with open(os.path.join(SAMPLES, name), "rb") as file:
            return file.read()

    def test_text_packs_to_the_script(self):
        self.assertEqual(pack(self.sample("morning.txt")), self.sample("morning.uds"))

    def test_expected_lines_fit_the_steps(self):
        self.put("output", self.sample("morning.expected"))
        script = self.sample("morning.uds")
        done = self.run_tool("udsshow", "--program", "cat output", given=script)
        self.expect(done, 0, error="")
        _, steps = udsformat.split_script(script)
        self.assertEqual(done.stdout.count(b"\n"), len(steps) + 1)


class FolderTest(unittest.TestCase):
    def test_tools_can_be_run(self):
        for name in ("udstext", "udsshow", "test"):
            self.assertTrue(os.access(os.path.join(TOOLS, name), os.X_OK), name)


if __name__ == "__main__":
    unittest.main()
