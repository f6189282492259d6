"""Records of a script for `circle`: their layout and their text form.

A record is a u16 payload length, a u16 kind and the payload, little-endian.
"""

import re
from collections import namedtuple

U8, U64 = 1, 8
HEAD = 4
LONGEST_PAYLOAD = 0xFFFF
LONGEST_RUN = 128

# tail: the name of the bytes that follow the fixed fields, at most `most` of
# them, or None.
Kind = namedtuple("Kind", "number name fields tail most")

_ADDRESS = [("source", U8), ("sender", U8), ("session", U64)]


def _u8(*names):
    return [(name, U8) for name in names]


def _u64(*names):
    return [(name, U64) for name in names]


KINDS = [
    Kind(1, "open", _u8("count", "local", "width", "delay", "period")
         + _u64("seed", "content", "rules", "session"), None, 0),
    Kind(2, "submit", [], "bytes", LONGEST_PAYLOAD),
    Kind(3, "hello", _ADDRESS + _u64("agreement", "content", "rules", "seed")
         + _u8("count", "width", "delay", "period"), None, 0),
    Kind(4, "inputs", _ADDRESS + _u64("first") + _u8("count", "width"), "run", LONGEST_RUN),
    Kind(5, "digest", _ADDRESS + _u64("tick", "state", "input"), None, 0),
    Kind(6, "bye", _ADDRESS + _u64("tick"), None, 0),
    Kind(7, "other", _ADDRESS + _u8("which"), None, 0),
    Kind(8, "advance", [], None, 0),
    Kind(9, "commit", _u64("tick") + _u8("flag") + _u64("digest"), None, 0),
    Kind(10, "leave", [], None, 0),
    Kind(11, "pump", [], None, 0),
    Kind(12, "report", [], None, 0),
]
BY_NAME = {kind.name: kind for kind in KINDS}
BY_NUMBER = {kind.number: kind for kind in KINDS}


# --- bytes ------------------------------------------------------------------

def frame(number, payload):
    """A record from its kind and its payload."""
    return len(payload).to_bytes(2, "little") + number.to_bytes(2, "little") + payload


def pack(name, *values):
    """A record by name, its fields in the order of the layout, the tail last."""
    kind = BY_NAME[name]
    parts = [value.to_bytes(size, "little") for (_, size), value in zip(kind.fields, values)]
    return frame(kind.number, b"".join(parts) + b"".join(values[len(kind.fields):]))


def split(script):
    """The records of a script as (kind, payload, bytes). What is left of a
    record that the end cuts off comes last, with the kind None."""
    at = 0
    while at < len(script):
        end = at + HEAD + int.from_bytes(script[at:at + 2], "little")
        if at + HEAD > len(script) or end > len(script):
            yield None, b"", script[at:]
            return
        number = int.from_bytes(script[at + 2:at + HEAD], "little")
        yield number, script[at + HEAD:end], script[at:end]
        at = end


def fixed_size(kind):
    return sum(size for _, size in kind.fields)


def fields_of(number, payload):
    """The kind and the field values of a payload, the tail last; or None where
    the kind is unknown or the length is wrong, which `circle` calls bad."""
    kind = BY_NUMBER.get(number)
    if kind is None or not 0 <= len(payload) - fixed_size(kind) <= kind.most:
        return None
    values, at = [], 0
    for _, size in kind.fields:
        values.append(int.from_bytes(payload[at:at + size], "little"))
        at += size
    if kind.tail is not None:
        values.append(payload[at:])
    return kind, values


# --- the agreement number ---------------------------------------------------

def absorb(value, data):
    """FNV-1a, 64 bits, carried on from `value`."""
    for byte in data:
        value = (value ^ byte) * 1099511628211 % 2**64
    return value


FNV_START = 14695981039346656037


def agreement(content, rules, seed, count, width, delay, period):
    """What every seat of a circle must agree on, as one number."""
    value = absorb(FNV_START, (3).to_bytes(4, "little"))
    for word in content, rules, seed:
        value = absorb(value, word.to_bytes(8, "little"))
    for small in count, width, delay, period:
        value = absorb(value, small.to_bytes(4, "little"))
    return value


# --- text -------------------------------------------------------------------

class TextError(Exception):
    """A line that says no record; the message names the field and what was
    expected."""


def _number(name, field, size, text):
    value = None
    if re.fullmatch(r"[0-9]{1,40}", text):
        value = int(text)
    elif re.fullmatch(r"0[xX][0-9a-fA-F]{1,40}", text):
        value = int(text, 16)
    limit = 256**size - 1
    if value is None or value > limit:
        raise TextError(f"{name}: field '{field}': expected a number from 0 to {limit}, decimal or 0x.., got '{text}'")
    return value


def _hex(name, field, text, most):
    if not re.fullmatch(r"([0-9a-fA-F]{2})*", text):
        raise TextError(f"{name}: field '{field}': expected bytes as pairs of hex digits, got '{text}'")
    if len(text) // 2 > most:
        raise TextError(f"{name}: field '{field}': expected at most {most} bytes, got {len(text) // 2}")
    return bytes.fromhex(text)


def _named(name, words, expected):
    """The words `field=value` of a line as a dictionary: each expected field
    once, in any order, and no other."""
    given = {}
    for word in words:
        field, equals, value = word.partition("=")
        if not equals or field not in expected:
            fields = " ".join(f"{each}=.." for each in expected) or "no fields"
            raise TextError(f"{name}: field '{field}': not known here, expected {fields}")
        if field in given:
            raise TextError(f"{name}: field '{field}': given twice, expected once")
        given[field] = value
    for field in expected:
        if field not in given:
            raise TextError(f"{name}: field '{field}': missing, expected {field}=..")
    return given


def _alone(name, words, field):
    """The one word that `submit` and `cut` may carry."""
    if len(words) > 1:
        raise TextError(f"{name}: field '{field}': expected one word of hex digits, got {len(words)} words")
    return words[0] if words else ""


def parse(line):
    """The record of one line of text, or None for a blank or comment line."""
    words = line.partition("#")[0].split()
    if not words:
        return None
    name, words = words[0], words[1:]
    if name == "record":
        given = _named(name, words, ["kind", "payload"])
        return frame(_number(name, "kind", 2, given["kind"]), _hex(name, "payload", given["payload"], LONGEST_PAYLOAD))
    if name == "cut":
        return _parse_cut(words)
    if name not in BY_NAME:
        raise TextError(f"expected one of {', '.join(BY_NAME)}, record, cut; got '{name}'")
    kind = BY_NAME[name]
    if name == "submit":
        return pack(name, _hex(name, "bytes", _alone(name, words, "bytes"), kind.most))
    sizes = dict(kind.fields)
    given = _named(name, words, list(sizes) + ([kind.tail] if kind.tail else []))
    auto = name == "hello" and given["agreement"] == "auto"
    if auto:
        given["agreement"] = "0"
    values = {field: _number(name, field, size, given[field]) for field, size in sizes.items()}
    if auto:
        values["agreement"] = _own_agreement(values)
    tail = [_hex(name, kind.tail, given[kind.tail], kind.most)] if kind.tail else []
    return pack(name, *values.values(), *tail)


def _parse_cut(words):
    tail = _hex("cut", "bytes", _alone("cut", words, "bytes"), HEAD + LONGEST_PAYLOAD)
    kinds = [number for number, _, _ in split(tail)]
    if kinds != [None]:
        raise TextError("cut: field 'bytes': expected the front of one record, without its end")
    return tail


def _own_agreement(values):
    return agreement(*(values[f] for f in ("content", "rules", "seed", "count", "width", "delay", "period")))


def text_of(number, payload, whole):
    """One record as a line of text, such that `parse` gives `whole` back."""
    if number is None:
        return f"cut {whole.hex()}"
    found = fields_of(number, payload)
    if found is None:
        return f"record kind={number} payload={payload.hex()}"
    kind, values = found
    if kind.name == "submit":
        return f"submit {payload.hex()}".rstrip()
    named = dict(zip([field for field, _ in kind.fields], values))
    if kind.name == "hello" and named["agreement"] == _own_agreement(named):
        named["agreement"] = "auto"
    words = [f"{field}={value}" for field, value in named.items()]
    if kind.tail is not None:
        words.append(f"{kind.tail}={values[-1].hex()}")
    return " ".join([kind.name] + words)


def pack_text(text):
    """The script that a text says, both as bytes."""
    parts, cut = [], None
    for number, raw in enumerate(text.split(b"\n"), 1):
        try:
            line = raw.decode("utf-8")
            part = parse(line)
        except UnicodeDecodeError:
            raise TextError(f"line {number}: expected text in UTF-8") from None
        except TextError as error:
            raise TextError(f"line {number}: {error}") from None
        if part is None:
            continue
        if cut is not None:
            raise TextError(f"line {number}: expected nothing after the cut record of line {cut}")
        if line.split()[0] == "cut":
            cut = number
        parts.append(part)
    return b"".join(parts)


def lines(script):
    """A script as lines of text."""
    return [text_of(*record) for record in split(script)]
