"""The binary script of document 01, its text form, and the words for its answers.

pack turns text into a script and unpack turns a script into text, both as
bytes. For every byte string x, pack(unpack(x)) == x.
"""

import codecs
import json
import os
import re
import struct
import sys
from collections import namedtuple
from itertools import zip_longest

# ---- The script's bytes ----

MARK = b"UDS\x00\x01"  # the letters and version 1
HEADER = struct.Struct(">5sII")
STEP = struct.Struct(">BBIHIHH")
STEP_LIMIT = 60000  # the program reads nothing behind this step

Step = namedtuple("Step", "kind descriptor a p b q length", defaults=[0] * 6)

# Widths of the fields, to space out hex digits.
HEADER_WIDTHS = (3, 2, 4, 4)
STEP_WIDTHS = (1, 1, 4, 2, 4, 2, 2)


def split_script(script):
    """The header and the list of steps; whatever comes last may be short."""
    starts = range(HEADER.size, len(script), STEP.size)
    return script[:HEADER.size], [script[at:at + STEP.size] for at in starts]


# ---- The words of the text ----

# Words in capitals are slots, the others stand as they are.
HEADER_FORM = "interface ADDRESS mask MASK"
STEP_FORMS = {
    1: "socket",
    2: "bind DESCRIPTOR LOCAL",
    3: "connect DESCRIPTOR REMOTE",
    4: "disconnect DESCRIPTOR",
    5: "sendto DESCRIPTOR TARGET len LENGTH",
    6: "recvfrom DESCRIPTOR",
    7: "close DESCRIPTOR",
    8: "reuse DESCRIPTOR SWITCH",
    9: "datagram FROM -> TO len LENGTH",
    10: "notice FROM -> TO",
    11: "out",
    12: "exit",
}
KINDS = {form.split()[0]: kind for kind, form in STEP_FORMS.items()}

# One way to write each number, so that "010" is never taken for eight or ten.
NUMBER = re.compile("0|[1-9][0-9]{0,4}")

# A reader gives the values of its slot's fields, or None for a word that does
# not fit; a writer gives the word for the values.


def read_number(word, limit):
    if NUMBER.fullmatch(word) and int(word) <= limit:
        return int(word)
    return None


def read_byte(word):
    number = read_number(word, 255)
    return None if number is None else (number,)


def read_length(word):
    number = read_number(word, 65535)
    return None if number is None else (number,)


def read_address(word):
    parts = [read_number(part, 255) for part in word.split(".")]
    if len(parts) != 4 or None in parts:
        return None
    return (int.from_bytes(bytes(parts), "big"),)


def write_address(address):
    return ".".join(str(part) for part in address.to_bytes(4, "big"))


def read_pair(word):
    before, _, after = word.rpartition(":")
    address, port = read_address(before), read_number(after, 65535)
    return None if address is None or port is None else (*address, port)


def write_pair(address, port):
    return f"{write_address(address)}:{port}"


def read_local(word):
    return read_pair("0.0.0.0" + word[1:] if word.startswith("*:") else word)


def write_local(address, port):
    return write_pair(address, port) if address else f"*:{port}"


def read_target(word):
    return (0, 0) if word == "peer" else read_pair(word)


def write_target(address, port):
    return write_pair(address, port) if address or port else "peer"


def read_switch(word):
    return {"on": (1,), "off": (0,)}.get(word)


def write_switch(port):
    return "on" if port else "off"


Slot = namedtuple("Slot", "fields expected read write")
SLOTS = {
    "ADDRESS": Slot(["address"], "ADDRESS", read_address, write_address),
    "MASK": Slot(["mask"], "MASK", read_address, write_address),
    "DESCRIPTOR": Slot(["descriptor"], "DESCRIPTOR (0 to 255)", read_byte, str),
    "LOCAL": Slot(["a", "p"], "ADDRESS:PORT or *:PORT", read_local, write_local),
    "REMOTE": Slot(["a", "p"], "ADDRESS:PORT", read_pair, write_pair),
    "TARGET": Slot(["a", "p"], "ADDRESS:PORT or peer", read_target, write_target),
    "FROM": Slot(["a", "p"], "ADDRESS:PORT", read_pair, write_pair),
    "TO": Slot(["b", "q"], "ADDRESS:PORT", read_pair, write_pair),
    "SWITCH": Slot(["p"], "on or off", read_switch, write_switch),
    "LENGTH": Slot(["length"], "LENGTH (0 to 65535)", read_length, str),
}


# ---- Text to script ----


class TextError(Exception):
    """A line of the text that cannot be packed."""

    def __init__(self, line, expected, found):
        super().__init__(f"line {line}: expected {expected}, found {found}")


def quoted(word):
    if word is None:
        return "the end of the line"
    return json.dumps(word, ensure_ascii=False)


def pack(text):
    """The script that the text describes; TextError where it describes none."""
    lines = said_lines(text)
    line, words = next(lines, (1, None))
    parts = [pack_header(line, words)]
    closed = "a header under 13 bytes" if len(parts[0]) < HEADER.size else None
    for line, words in lines:
        if closed:
            raise TextError(line, f"nothing after {closed}", quoted(words[0]))
        parts.append(pack_step(line, words))
        closed = "tail" if len(parts[-1]) < STEP.size else None
    return b"".join(parts)


def said_lines(text):
    """The number and the words of each line that has any."""
    # Cut at newlines only, so that the numbers are those of an editor.
    for line, found in enumerate(text.removeprefix(codecs.BOM_UTF8).split(b"\n"), 1):
        try:
            words = found.decode("utf-8").partition("#")[0].split()
        except UnicodeDecodeError:
            raise TextError(line, "text in UTF-8", "other bytes") from None
        if words:
            yield line, words


def pack_header(line, words):
    expected = f"{HEADER_FORM}, or header HEX"
    if words is None:
        raise TextError(line, expected, "the end of the text")
    if words == ["header", "none"]:
        return b""
    if words[0] == "header":
        return read_hex(line, words, 1, HEADER.size)
    if words[0] != "interface":
        raise TextError(line, expected, quoted(words[0]))
    values = read_form(HEADER_FORM, line, words)
    return HEADER.pack(MARK, values["address"], values["mask"])


def pack_step(line, words):
    """The 16 bytes of a step, or fewer for a tail."""
    if words[0] == "raw":
        return read_hex(line, words, STEP.size, STEP.size)
    if words[0] == "tail":
        return read_hex(line, words, 1, STEP.size - 1)
    if words[0] not in KINDS:
        names = ", ".join([*KINDS, "raw", "tail"])
        raise TextError(line, f"a step ({names})", quoted(words[0]))
    kind = KINDS[words[0]]
    return STEP.pack(*Step(kind, **read_form(STEP_FORMS[kind], line, words)))


def read_form(form, line, words):
    """The values of the fields in the form's slots."""
    values = {}
    for wanted, found in zip_longest(form.split(), words):
        if wanted in SLOTS:
            values.update(read_slot(SLOTS[wanted], line, found))
        elif wanted != found:
            raise TextError(line, wanted or "the end of the line", quoted(found))
    return values


def read_slot(slot, line, word):
    values = None if word is None else slot.read(word)
    if values is None:
        raise TextError(line, slot.expected, quoted(word))
    return zip(slot.fields, values)


def read_hex(line, words, least, most):
    """The bytes that follow the first word, in any grouping."""
    data = b""
    for word in words[1:]:
        try:
            data += bytes.fromhex(word)
        except ValueError:
            raise TextError(line, "pairs of hex digits", quoted(word)) from None
    if not least <= len(data) <= most:
        span = most if least == most else f"{least} to {most}"
        raise TextError(line, f"{span} bytes in hex", byte_count(len(data)))
    return data


# ---- Script to text ----


def unpack(script):
    """Text that packs to these bytes, whatever they are."""
    header, steps = split_script(script)
    lines = [header_text(header), *map(step_line, steps)]
    return "".join(line + "\n" for line in lines).encode("ascii")


# Both writers pack their own words again and fall back on hex where the bytes
# differ: that covers unused fields, unknown kinds and every other oddity.


def header_text(header):
    if not header:
        return "header none"
    if len(header) == HEADER.size:
        _, address, mask = HEADER.unpack(header)
        plain = write_form(HEADER_FORM, {"address": address, "mask": mask})
        if pack_header(0, plain.split()) == header:
            return plain
    return write_hex("header", header, HEADER_WIDTHS)


def step_text(step):
    """The line for a step, or for the bytes left over where one would be."""
    if len(step) < STEP.size:
        return write_hex("tail", step, STEP_WIDTHS)
    fields = Step(*STEP.unpack(step))
    if fields.kind in STEP_FORMS:
        plain = write_form(STEP_FORMS[fields.kind], fields._asdict())
        if pack_step(0, plain.split()) == step:
            return plain
    return write_hex("raw", step, STEP_WIDTHS)


def step_line(step):
    """The same, with a comment that says what a raw step is."""
    text = step_text(step)
    if not text.startswith("raw"):
        return text
    form = STEP_FORMS.get(step[0])
    if form is None:
        return f"{text}  # kind {step[0]}, unknown"
    return f"{text}  # {form.split()[0]}, with extra bits"


def write_form(form, values):
    return " ".join(write_word(word, values) for word in form.split())


def write_word(word, values):
    if word not in SLOTS:
        return word
    slot = SLOTS[word]
    return slot.write(*(values[field] for field in slot.fields))


def write_hex(word, data, widths):
    groups = [word]
    for width in widths:
        groups.append(data[:width].hex())
        data = data[width:]
    return " ".join(group for group in groups if group)


# ---- The program's answers ----

# {} is the place of the descriptor that comes with the answer.
ANSWERS = {
    0: "done",
    1: "record not well formed",
    2: "store of another length",
    3: "thread has ended",
    4: "thread is waiting",
    5: "descriptor not open",
    6: "bad argument or moment",
    7: "port 1 to 1023",
    8: "address not our own",
    9: "address in use",
    10: "connection refused (pending error)",
    11: "payload over 512",
    12: "no peer",
    13: "no route",
    14: "would wait",
    15: "16 sockets open",
    16: "lent buffer too short",
    17: "interfaces refused",
    18: "waiting",
    20: "delivered to {}",
    21: "dropped, the queue of {} is full",
    22: "for nobody, PORT notice queued",
    23: "for nobody, no notice queued",
    24: "destination not our own",
    25: "martian or loopback address",
    26: "payload over 512",
    27: "pending error set",
    28: "socket found, no error set",
    29: "no socket for the notice",
    30: "emitted",
    31: "nothing to send",
    32: "martian destination, discarded",
}

# What ends the output before the script does.
CLOSINGS = {
    "bad header": "not UDS, version 1, address and mask in 13 bytes",
    "bad interface": "the address is martian or loopback",
    "short": "under 16 bytes are left for this step",
    "bad": "no step has this kind",
}


def answer_words(answer, descriptor, length):
    """An answer in words; descriptor and length as printed, "-" where absent."""
    words = ANSWERS[answer]
    if "{}" in words:
        words = words.format(descriptor)
    elif descriptor != "-":
        words += f", descriptor {descriptor}"
    if length != "-":
        words += f", {byte_count(int(length))}"
    return f"{answer} {words}"


def closing_words(closing):
    return f"{closing}: {CLOSINGS[closing]}"


def byte_count(number):
    return "1 byte" if number == 1 else f"{number} bytes"


# ---- What both tools do at the command line ----


class ToolError(Exception):
    """A message for the person, and the exit status that goes with it."""

    def __init__(self, message, status=2):
        super().__init__(message)
        self.status = status


def read_input(path):
    """All bytes of the file, or of standard input for "-"."""
    try:
        if path == "-":
            return sys.stdin.buffer.read()
        with open(path, "rb") as file:
            return file.read()
    except OSError as error:
        name = "standard input" if path == "-" else path
        raise ToolError(f"cannot read {name}: {error.strerror}") from None


def pack_input(path):
    """The script that the file's text describes."""
    try:
        return pack(read_input(path))
    except TextError as error:
        raise ToolError(error if path == "-" else f"{path}: {error}") from None


def run_tool(name, main):
    """Run main and leave with its status; no error shows a traceback."""
    try:
        try:
            status = main()
        finally:
            sys.stdout.flush()  # ahead of any message
    except ToolError as error:
        print(f"{name}: {error}", file=sys.stderr)
        status = error.status
    except BrokenPipeError:
        drop_output()
        status = 1
    except OSError as error:
        drop_output()
        print(f"{name}: cannot write: {error.strerror}", file=sys.stderr)
        status = 2
    except KeyboardInterrupt:
        status = 130
    sys.exit(status)


def drop_output():
    """Let the interpreter's last flush succeed when nobody takes the output."""
    os.dup2(os.open(os.devnull, os.O_WRONLY), sys.stdout.fileno())
