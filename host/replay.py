#!/usr/bin/env python3
"""Chooses small cases from a list of answers and writes them in the form that the program
`replay` reads: its standard input, and what it must print.

    cargo run --release -p cases -- list --count 8000 | ./replay.py ../crates/replay

A line of the list is `call name=value .. => rust VALUE | plain VALUE | refused NUMBER PLACE | withdrawn`.
From each call come the first few values and the first few refusals of every number, told
apart by mode, by radius form and by what offended; distances by `sum` too, which says what
their sum is before its cut to zero. Every number that a call can give must be among them, and
every kind of sum. Of a record of no bytes come withdrawn positions, for each call that takes a
record, and every refusal that comes before them. Norms come absent, as 1.0, as -0.0 and as others,
refused for each thing that can be wrong with them, and so large that the score is refused. Stored
rotations come under every setup and by themselves, with a wrong length and a bad entry told apart from
the projections', and records of other dimensions are read, written, scored, and refused under signs. A record
that is read stands in the list once for each call that reads it, but where it is there for its norm's
value alone. The form of a case is described in crates/replay/src/frame.rt.
"""
import struct
import sys

# The calls in the order in which `replay` knows them, and the refusals that each can give.
CALLS = {
    "packed_len": {1, 19},
    "encoded_bytes": {18},
    "validate_padding_zero": {13, 14},
    "codebook_uniform": {1, 17},
    "codebook_levels": {1, 17},
    "codebook_quantize": {1, 17, 11},
    "codebook_midpoint": {1, 17, 15},
    "root": set(),
    "dequantize_angle": {1, 15},
    "seeds": set(),
    "read_record": {13, 18, 2, 3, 4, 1, 8, 17, 23, 16, 14},
    "radii_part": {13, 18, 2, 3, 4, 1, 8, 17, 23, 16, 14},
    "indices_part": {13, 18, 2, 3, 4, 1, 8, 17, 23, 16, 14},
    "signs_part": {13, 18, 2, 3, 4, 1, 8, 17, 23, 16, 14},
    "pack_indices": {1, 15, 6},
    "pack_signs": {10, 6},
    "compress": {16, 18, 6},
    "write_record": {18, 2, 3, 4, 1, 8, 5, 23, 16, 15, 10, 6},
    "unpack_indices": {1, 19, 13, 14, 6},
    "read_indices": {13, 18, 2, 3, 4, 1, 8, 17, 23, 16, 14},
    "unpack_signs": {13, 14, 6},
    "read_signs": {13, 18, 2, 3, 4, 1, 8, 17, 23, 16, 14},
    "decompress": {18, 13, 17, 16, 6},
    "read_radii": {13, 18, 2, 3, 4, 1, 8, 17, 23, 16, 14},
    "apply": {2, 3, 4, 5, 10, 6},
    "apply_inverse": {2, 3, 4, 5, 10, 6},
    "stored_apply": {2, 3, 26, 5, 9, 6},
    "stored_apply_inverse": {2, 3, 26, 5, 9, 6},
    "score_prepared": {2, 3, 1, 8, 4, 26, 5, 7, 11, 13, 18, 17, 23, 16, 14, 20, 12},
    "setup": {2, 3, 1, 8, 4, 26, 5, 10, 7, 9},
    "sketch": {2, 3, 1, 8, 4, 26, 5, 10, 7, 9, 11, 6},
    "prepare_query": {2, 3, 1, 8, 4, 26, 5, 10, 7, 9, 11, 6},
    "decode": {2, 3, 1, 8, 4, 26, 5, 10, 7, 9, 13, 18, 17, 23, 16, 14, 20, 6},
    "sketch_score": {2, 3, 1, 8, 4, 26, 5, 10, 7, 9, 11, 23, 12},
    "score": {2, 3, 1, 8, 4, 26, 5, 10, 7, 9, 11, 13, 18, 17, 23, 16, 14, 20, 12},
    "distance": {2, 3, 1, 8, 4, 26, 5, 10, 7, 9, 11, 13, 18, 17, 23, 16, 14, 20, 12},
}
# What a distance's sum can be, with the number of its refusal or 0; None where the score is not finite.
SUMS = {(12, None), (12, "nan"), (12, "+inf"), (0, "-inf"), (0, "finite")}
# The calls that a line of `read_record` stands for, and all that take a record.
READERS = [call for call in CALLS if call.startswith("read_") or call.endswith("_part")]
TAKERS = [*READERS, "score_prepared", "decode", "score", "distance"]
# The number of a withdrawn position, and the refusals that can only come after it.
WITHDRAWN = 255
AFTER = {13, 18, 17, 23, 16, 14, 20, 12, 6}
# The modes that withdrawn positions come in, and whether an output has its length; other calls have both modes.
ROOMS = {call: {(None, True)} for call in READERS}
ROOMS["decode"] = {(mode, fits) for mode in ("polar", "residual") for fits in (True, False)}
# What norms a call must have, and what must be wrong with them: `about_norm` says which a case has.
SCORED = {"absent", "1.0", "-0.0", "another", "infinite scale"}
NORMS = {
    "read_record": {
        "absent", "1.0", "-0.0", "another", "bit alone", "bit undefined", "header cut",
        "bad", "bad, the radii too", "bad, the range first",
    },
    "write_record": {"absent", "1.0", "-0.0", "another", "without signs", "profile", "bad", "bad, the radii too"},
    "sketch_score": {"1.0", "-0.0", "another", "infinite scale", "bad, polar", "bad, residual"},
    "score_prepared": SCORED,
    "score": SCORED,
    "distance": SCORED,
    "decode": {"absent", "another"},
}
# What a call must have of boards of other dimensions: `about_board` says which a case is.
UNDER = {"stored", "5, the rotation", "9, the rotation", "9, the projections"}
OPENED = {"stored, another dimension", "5, another dimension under signs"}
ALONE = {"stored 2", "stored 4", "stored 6", "stored 8", "26 before 5", "9 before 5"}
BOARDS = {
    "stored_apply": ALONE,
    "stored_apply_inverse": ALONE,
    "read_record": {"another dimension"},
    "write_record": {"another dimension"},
    "score_prepared": {"stored", *OPENED},
    "setup": UNDER | {"1 before 26", "8 before 26", "9 before 7"},
    "sketch": UNDER,
    "prepare_query": UNDER,
    "sketch_score": UNDER,
    "decode": UNDER | OPENED,
    "score": UNDER | OPENED,
    "distance": UNDER | OPENED,
}
# The norms 1.0 and -0.0, root(PI / 2), and the largest norm with a finite product with it.
ONE, MINUS_ZERO, ROOT, LARGEST = 0x3F800000, 0x80000000, 0x3FA06C99, 0x7F4C4229
# The lists of a case, by their places in it, the form of an element, and the mark of one that is not written.
ROTATION, DIRECTIONS, MATRIX, VECTOR, FLOATS, INDICES, SKETCH, BYTES, PROJECTED, PART = range(10)
FORMS = {INDICES: "H", SKETCH: "b", BYTES: "B", PART: "B"}
MARKS = {FLOATS: 0xC0E80000, INDICES: 0xA5A5, SKETCH: 0x5A, BYTES: 0xA5, PROJECTED: 0xC0E80000}
# The lists that a call writes, and the field with the length that is lent; 3 where there is none.
WRITES = {
    "pack_indices": {BYTES: "out"},
    "pack_signs": {BYTES: "out"},
    "compress": {BYTES: "out"},
    "write_record": {BYTES: "out"},
    "unpack_indices": {INDICES: "out"},
    "read_indices": {INDICES: ""},
    "unpack_signs": {SKETCH: "out"},
    "read_signs": {SKETCH: ""},
    "sketch": {SKETCH: "out"},
    "decompress": {FLOATS: "out"},
    "apply": {FLOATS: "out"},
    "apply_inverse": {FLOATS: "out"},
    "stored_apply": {FLOATS: "out"},
    "stored_apply_inverse": {FLOATS: "out"},
    "read_radii": {FLOATS: ""},
    "decode": {FLOATS: "out"},
    "prepare_query": {FLOATS: "out_rotated", PROJECTED: "out_projected"},
}
MOST, NAME, LARGEST_CASE = 64, 24, 512
VALUES, SETUP_VALUES, REFUSALS = 6, 2, 1


def patterns(text):
    return [] if text == "-" else [int(item, 16) for item in text.split(",")]


def numbers(text):
    return [] if text == "-" else [int(item) for item in text.split(",")]


def octets(text):
    return [] if text == "-" else list(bytes.fromhex(text))


def finite(pattern):
    return pattern & 0x7F800000 != 0x7F800000


def classes(fields):
    """The classes of floats among a case's inputs."""
    found = set()
    for name in ("min", "max", "value", "norm", "radii", "input", "vector", "query", "rotated"):
        for pattern in patterns(fields.get(name, "-")):
            size, sign = pattern & 0x7FFFFFFF, pattern >> 31
            if size == 0 or size >= 0x7F800000:
                found.add((size > 0x7F800000) or (size, sign))
            else:
                found.add("small" if size < 0x800000 else "large" if size > 0x70000000 else "plain")
    return frozenset(found)


def stored(fields):
    """Whether a case has a stored rotation, under a setup or by itself."""
    return fields.get("kind") == "stored" or "matrix" in fields and "directions" not in fields


def power(dim):
    return dim & (dim - 1) == 0


def about_board(call, fields, number, place):
    """What a case has to do with boards of other dimensions: one of its call's in BOARDS, or nothing."""
    dim, record = int(fields.get("dim", "0")), octets(fields.get("record", "-"))
    other = len(record) > 5 and not power(int.from_bytes(record[1:5], "little"))
    if call.startswith("stored_"):
        if number in (26, 9):
            return f"{number} before 5" if len(patterns(fields["input"])) != dim else ""
        return f"stored {dim}" if number == 0 else ""
    if call in ("read_record", "write_record"):
        return "another dimension" if number == 0 and (other or not power(dim)) else ""
    if not stored(fields):
        named = "5, another dimension under signs"
        return named if number == 5 and other and place == int.from_bytes(record[1:5], "little") else ""
    entries = patterns(fields["rotation"])
    if number == 0:
        return "stored, another dimension" if other else "stored"
    if number == 5 and len(entries) != dim * dim and place == len(entries):
        return "5, the rotation"
    if number == 9 and not all(map(finite, entries)):
        wide = any(p & 0x7FFFFFFF > ONE for p in patterns(fields["directions"]))
        return "9 before 7" if call == "setup" and wide else "9, the rotation"
    if number == 9:
        return "9, the projections"
    if number in (1, 8) and call == "setup" and dim > 512:
        return f"{number} before 26"
    return ""


def offender(fields, number):
    """What a refusal is about, where a number can stand for several things."""
    told = []
    if "directions" in fields:
        dim, bits, rows = (int(fields[name]) for name in ("dim", "bits", "projections"))
        residual = fields["mode"] == "residual"
        scalars = (
            dim in ((2, 4, 6, 8) if stored(fields) else (2, 4, 8))
            and 1 + residual <= bits <= 16
            and (not residual or 1 <= rows <= 4096)
        )
        told.append(scalars)
        if number == 5:
            told.append(len(patterns(fields["rotation"])) == (dim * dim if stored(fields) else dim))
            told.append(len(patterns(fields["directions"])) == 2 << max(bits - residual, 0))
            told.append(len(patterns(fields["matrix"])) == (rows * dim if residual else 0))
            told.append(len(patterns(fields.get("query", fields.get("vector", "-")))) == dim)
            told.append(len(patterns(fields.get("rotated", "-"))) == dim)
        if number == 11:
            told.append(all(finite(p) for p in patterns(fields.get("query", "-"))))
            told.append(all(finite(p) for p in patterns(fields.get("rotated", "-"))))
    elif number == 5 and stored(fields):
        told.append(len(patterns(fields["matrix"])) == int(fields["dim"]) ** 2)
    elif number == 5:
        told.append(len(fields["signs"].split(",")) == int(fields["dim"]))
        told.append(2 * len(fields.get("radii", "-").split(",")) == int(fields["dim"]))
    if number == 16:
        told.append(fields.get("profile"))
    if number == 1:
        told.append(fields.get("bits") == "16")
    if number == 6:
        told.append(fields.get("out_rotated") == fields.get("dim"))
    if number == 12:
        told.append(fields.get("sum"))
    return str(told + about_record(fields, number))


def bad(pattern):
    """Whether a radius or a norm is NaN, infinite or below zero."""
    return not finite(pattern) or pattern > MINUS_ZERO


def header(record):
    """The length of a record's header, by its map byte."""
    return 6 + 8 * (record[0] & 1) + 4 * (record[0] >> 1 & 1) + 4 * (record[0] >> 2 & 1)


def norm_of(fields):
    """The norm that a call is given, beside a record or in it; None where it is absent."""
    if "norm" in fields:
        return (patterns(fields["norm"]) or [None])[0]
    record = octets(fields.get("record", "-"))
    if len(record) < 6 or record[0] not in (6, 7) or len(record) < header(record):
        return None
    return int.from_bytes(record[header(record) - 4 : header(record)], "little")


def single(value):
    """A number rounded to an f32; of two of them a product is exact before, and a quotient rounds to the same."""
    return struct.unpack("<f", struct.pack("<f", value))[0]


def any_order(norm, rows):
    """Whether the scale is the same with the quotient first: root(PI / 2) times the norm, by the rows."""
    root, norm = (struct.unpack("<f", struct.pack("<I", pattern))[0] for pattern in (ROOT, norm))
    return single(single(root * norm) / rows) == single(single(root / rows) * norm)


def about_norm(call, fields, number):
    """What a case has to do with norms: one of its call's in NORMS, or nothing."""
    norm, record = norm_of(fields), octets(fields.get("record", "-"))
    reads = call == "read_record"
    if number == 0:
        # A sketch score in `PolarOnly` is 0 for every norm.
        if call == "sketch_score" and fields["mode"] == "polar":
            return "another"
        named = {None: "absent", ONE: "1.0", MINUS_ZERO: "-0.0"}.get(norm, "another")
        scales = named == "another" and NORMS.get(call, set()) >= {"infinite scale"}
        return "in any order" if scales and any_order(norm, int(fields["projections"])) else named
    if number == 12:
        return "infinite scale" if norm is not None and LARGEST < norm < MINUS_ZERO else ""
    if number == 18 and call == "write_record":
        return "profile" if fields["profile"] == "log" else "without signs"
    if number == 18 and reads:
        return "bit alone" if record[0] in (4, 5) else "bit undefined"
    if number == 13 and reads and len(record) > 5 and record[0] in (6, 7):
        return "header cut" if header(record) - 4 <= len(record) < header(record) else ""
    if number == 17 and reads:
        return "bad, the range first" if norm is not None and bad(norm) else ""
    if number == 23 and call == "sketch_score":
        return f"bad, {fields['mode']}"
    if number == 23 and (reads or call == "write_record"):
        radii = patterns(fields.get("radii", "-"))
        if record[:1] == [6]:
            pairs = int.from_bytes(record[1:5], "little") // 2
            radii = struct.unpack(f"<{pairs}I", bytes(record[14 : 14 + 4 * pairs]))
        return "bad, the radii too" if any(map(bad, radii)) else "bad"
    return ""


def about_record(fields, number):
    """What tells two refusals with a record apart, and two withdrawn positions."""
    if "record" not in fields:
        return []
    record, alone = octets(fields["record"]), len(fields) == 1
    told = [not record]
    if number == 13:
        told += [len(record) <= most for most in ((1, 4, 5, 9) if alone else (5,))]
    if number in (14, 16, 17) and alone:
        told.append(record[0] & 3)
    if number == WITHDRAWN:
        told.append(room(fields))
    return told


def room(fields):
    """A case's mode, and whether an output that is lent beside a dimension has its length."""
    return fields.get("mode"), fields.get("out", fields.get("dim")) == fields.get("dim")


def ended(answer):
    """A refusal's number and place, those of a withdrawn position, or 0 and 0 beside a value."""
    kind, *said = answer.split()
    if kind == "withdrawn":
        return WITHDRAWN, 0
    return (int(said[0]), int(said[1])) if kind == "refused" else (0, 0)


def small(fields):
    """Whether a case is small enough to be written down."""
    # A dimension that the setup's rotation doesn't take may be larger, and so may a count that is refused.
    refused = 513 if stored(fields) else 9 if fields.get("kind") and not power(int(fields["dim"])) else 4097
    if 8 < int(fields.get("dim", "0")) < refused or 8 < int(fields.get("projections", "0")) <= 4096:
        return False
    if fields.get("mode") == "residual" and 4 < int(fields["projections"]) <= 4096:
        return False
    for name, text in fields.items():
        if name in ("bytes", "payload", "record"):
            if len(text) > 2 * MOST:
                return False
        elif name.startswith("out") or text.count(",") >= MOST:
            if text.count(",") >= MOST or int(text) > MOST:
                return False
    return True


def inputs(call, fields):
    """The lists that a call is lent to read."""
    turns = numbers if call in ("pack_signs", "write_record") else patterns
    places = {
        "indices": (INDICES, numbers),
        "bytes": (BYTES, octets),
        "payload": (BYTES, octets),
        "record": (BYTES, octets),
        "signs": (SKETCH if turns is numbers else ROTATION, turns),
        "rotation": (ROTATION, patterns),
        "sketch": (SKETCH, numbers),
        "directions": (DIRECTIONS, patterns),
        "matrix": (ROTATION if call.startswith("stored_") else MATRIX, patterns),
        "radii": (VECTOR, patterns),
        "input": (VECTOR, patterns),
        "vector": (VECTOR, patterns),
        "query": (VECTOR, patterns),
        "rotated": (VECTOR, patterns),
        "projected": (PROJECTED, patterns),
    }
    return {list_: read(fields[name]) for name, (list_, read) in places.items() if name in fields}


def part(call, record):
    """A part of a record that is not refused, by document 01's layout."""
    pairs, bits = int.from_bytes(record[1:5], "little") // 2, record[5]
    linear, residual = record[0] & 1, record[0] >> 1 & 1
    rows = int.from_bytes(record[6 + 8 * linear :][:4], "little") if residual else 0
    start = header(record)
    sizes = [pairs * (2 if linear else 4), (pairs * bits + 7) // 8, (rows + 7) // 8]
    assert start + sum(sizes) == len(record)
    place = ["radii_part", "indices_part", "signs_part"].index(call)
    start += sum(sizes[:place])
    return record[start : start + sizes[place]]


def told(call, what, parts, three, floats, answer, lists):
    """Puts a value into a case: into its third number and float, the floats of its answer, and its lists."""
    if call.endswith("_part"):
        lists[PART] = part(call, lists[BYTES])
    elif what == "number":
        three[2] = int(parts[0])
    elif what == "float":
        answer[0] = int(parts[0], 16)
    elif what == "floats":
        lists[FLOATS] = patterns(parts[0])
    elif what == "bytes":
        lists[BYTES] = octets(parts[0])
    elif what == "numbers":
        lists[INDICES] = numbers(parts[0])
    elif what == "signs":
        lists[SKETCH] = numbers(parts[0])
    elif what == "codebook":
        three[2] = int(parts[0])
        answer[:] = patterns(",".join(parts[1:]))
    elif what == "radii":
        answer[:] = patterns(",".join(parts[:2]))
        lists[BYTES] = octets(parts[2])
    elif what == "seeds":
        three[1:] = [int(item, 16) for item in parts]
    elif what == "prepared":
        lists[FLOATS], lists[PROJECTED] = map(patterns, parts)
    elif what == "record":
        values = {"read_radii": (FLOATS, patterns), "read_indices": (INDICES, numbers), "read_signs": (SKETCH, numbers)}
        if call in values:
            list_, read = values[call]
            lists[list_] = read(parts[list_ - FLOATS])
        elif call == "read_record":
            three[2] = int(parts[3] != "-")
            floats[2] = (patterns(parts[3]) or [ONE])[0]
    else:
        assert what == "done", what


def encode(call, fields, text):
    lists = inputs(call, fields)
    number, place = ended(text)
    profile = ["f32", "linear", "log"].index(fields.get("profile", "f32"))
    mode = ["polar", "residual"].index(fields.get("mode", "polar"))
    three = [0, int(fields.get("projections", 0)), 0]
    for name in ("count", "used_bits", "dim", "index"):
        three[0] = int(fields.get(name, three[0]))
    if "kind" in fields:
        three[2] = ["hadamard", "stored"].index(fields["kind"])
    if "seed" in fields:
        three[0] = int(fields["seed"], 16)
    floats = [int(fields.get(name, "0"), 16) for name in ("min", "max", "value")]
    if call in ("write_record", "sketch_score"):
        norm = norm_of(fields)
        floats[2] = norm or 0
    if call == "write_record":
        three[2] = int(norm is not None)
    answer = [0, 0]
    if number:
        for list_, room in WRITES.get(call, {}).items():
            lists[list_] = [MARKS[list_]] * int(fields.get(room, 3))
    else:
        _, what, *parts = text.split()
        told(call, what, parts, three, floats, answer, lists)
        for list_, room in WRITES.get(call, {}).items():
            assert len(lists[list_]) == int(fields.get(room, len(lists[list_])))
    head = struct.pack("<BBBBQ3Q3I2I", number, mode, profile, int(fields.get("bits", "0")), place, *three, *floats, *answer)
    body, table = b"", b""
    for list_ in range(10):
        items, form = lists.get(list_, []), FORMS.get(list_, "I")
        assert len(items) <= MOST
        assert list_ != SKETCH or set(items) <= {-128, -2, -1, 0, 1, 2, 3, MARKS[SKETCH], 127}
        body += bytes(-len(body) % 4)
        table += struct.pack("<HH", (96 + len(body)) // struct.calcsize(form), len(items))
        body += struct.pack(f"<{len(items)}{form}", *items)
    assert len(head) == 56
    return head + table + body


def kind_of(call, fields, answer):
    """How many cases of a kind are taken, and what tells it from others of the same call and number."""
    (number, place), record = ended(answer), octets(fields.get("record", "-"))
    norm, board = about_norm(call, fields, number), about_board(call, fields, number, place)
    if number:
        return REFUSALS, [offender(fields, number), norm, board]
    by, mode, signs = answer.split()[0], fields.get("mode"), record[:1] > [1]
    # A norm that the call need not have is not worth a case, and plain sums show another one once.
    if call in NORMS and (norm not in NORMS[call] or by == "plain" and norm in ("1.0", "-0.0")):
        return 0, []
    if norm in ("1.0", "-0.0") or norm == "another" and by == "plain":
        return 1, [norm, by]
    limit = SETUP_VALUES if mode or record else VALUES
    if call == "root":
        limit = 2 * VALUES
    elif by == "plain" or norm == "another" or (call == "read_record" and signs):
        limit = 1
    elif call.startswith("stored_"):
        limit = SETUP_VALUES
    return limit, [by, mode, fields.get("profile"), record[:1], fields.get("sum"), norm, board]


def choose(lines):
    """The cases that are taken, as (call, fields, answer)."""
    seen = {}
    for line in lines:
        if line.startswith("#"):
            continue
        asked, answer = line.rstrip("\n").split(" => ")
        call, *words = asked.split()
        fields = dict(word.split("=", 1) for word in words)
        if not small(fields):
            continue
        # What is refused before a record is read is chosen with a whole record, and with none.
        if 0 < len(octets(fields.get("record", "-"))) < 6 and ended(answer)[0] != 13:
            continue
        limit, kind = kind_of(call, fields, answer)
        about = seen.setdefault(str([call, ended(answer)[0], kind]), set())
        if len(about) >= limit or (classes(fields), asked) in about:
            continue
        # A value of floats whose classes were not there yet is worth more.
        known = any(classes(fields) == kinds for kinds, _ in about if kinds)
        if known and len(about) >= limit // 2:
            continue
        if any(len(encode(each, fields, answer)) > LARGEST_CASE for each in readers(call, fields, answer)):
            continue
        about.add((classes(fields), asked))
        yield call, fields, answer


def whole(taken):
    """Stops where a number, a kind of sum, of norm or of board, a withdrawn position or a refusal before it is missing."""
    numbers_of = {call: set() for call in CALLS}
    rooms, before = {call: set() for call in TAKERS}, {call: set() for call in TAKERS}
    sums, lengths, norms = set(), set(), {call: set() for call in NORMS}
    boards = {call: set() for call in BOARDS}
    for call, fields, answer in taken:
        number, place = ended(answer)
        if call in BOARDS:
            boards[call].add(about_board(call, fields, number, place))
        if call in NORMS:
            norms[call].add(about_norm(call, fields, number))
        if call == "distance" and number in (0, 12):
            sums.add((number, fields.get("sum")))
        if call == "read_record" and number == 13:
            lengths.add(len(octets(fields["record"])))
        for each in readers(call, fields, answer):
            numbers_of[each].add(number)
            if number == WITHDRAWN:
                rooms[each].add(room(fields))
            elif fields.get("record") == "-":
                before[each].add(number)
    for call, refusals in CALLS.items():
        wanted = refusals | ({0, WITHDRAWN} if call in TAKERS else {0})
        assert numbers_of[call] == wanted, (call, wanted ^ numbers_of[call])
    for call in TAKERS:
        wanted = set() if call in READERS else CALLS[call] - AFTER
        assert before[call] == wanted, (call, wanted ^ before[call])
        assert rooms[call] == ROOMS.get(call, {("polar", True), ("residual", True)}), (call, rooms[call])
    for call, wanted in NORMS.items():
        assert norms[call] >= wanted, (call, wanted - norms[call])
    for call, wanted in BOARDS.items():
        assert boards[call] >= wanted, (call, wanted - boards[call])
    assert sums == SUMS, SUMS ^ sums
    assert {1, 5} <= lengths, lengths


def readers(call, fields, answer):
    """The calls that a line is put to: where it is about a norm's value, reading the header alone."""
    if call != "read_record" or about_norm(call, fields, ended(answer)[0]) in ("1.0", "-0.0", "bad, the range first"):
        return [call]
    return READERS


def main():
    taken = list(choose(sys.stdin))
    whole(taken)
    chosen = {call: [] for call in CALLS}
    for call, fields, answer in taken:
        for each in readers(call, fields, answer):
            chosen[each].append(encode(each, fields, answer))
    total = sum(map(len, chosen.values()))
    with open(f"{sys.argv[1]}/stdin", "wb") as out:
        for call, cases in chosen.items():
            out.write(f"{call}:".ljust(NAME).encode() + struct.pack("<H", len(cases)))
            for case in cases:
                out.write(struct.pack("<H", len(case)) + case)
        out.write("all:".ljust(NAME).encode())
    with open(f"{sys.argv[1]}/stdout", "w") as out:
        for call, count in [*((call, len(cases)) for call, cases in chosen.items()), ("all", total)]:
            out.write(f"{call}:".ljust(NAME) + f"{count} cases, 0 differ\n")


main()
