#!/usr/bin/env python3
"""Tests of tools/job."""

import importlib.machinery
import importlib.util
import pathlib
import random
import struct
import subprocess
import sys
import tempfile
import unittest
from fractions import Fraction

sys.dont_write_bytecode = True
HERE = pathlib.Path(__file__).resolve().parent
TOOL = HERE / "job"
EXAMPLES = HERE.parent / "examples"


def load_tool():
    """Loads the tool as a module, though its name has no ending."""
    loader = importlib.machinery.SourceFileLoader("job", str(TOOL))
    module = importlib.util.module_from_spec(importlib.util.spec_from_loader("job", loader))
    loader.exec_module(module)
    return module


job = load_tool()


def run(*arguments, data=b""):
    """Runs the tool as a program."""
    return subprocess.run([sys.executable, str(TOOL), *map(str, arguments)], input=data, capture_output=True)


def bare(text):
    """Drops comments and blank lines."""
    lines = (line.split("#")[0].strip() for line in text.split("\n"))
    return "".join(line + "\n" for line in lines if line)


def word(value):
    """Gives a number of four bytes, lowest first."""
    return value.to_bytes(4, "little")


def bits(value):
    """Gives the bits of a binary64 as a whole number."""
    return int.from_bytes(struct.pack("<d", value), "little")


def weight_record(segment, form, whole=0, fraction=0):
    """Gives a weight record; the fraction is its bits."""
    return bytes([6, segment, form, 0]) + word(whole) + fraction.to_bytes(8, "little")


def random_range(rng, count):
    """Gives lowest and highest index below count."""
    return sorted(rng.randrange(count) for _ in range(2))


def random_table(rng, count, most_resistance, most_capacitance):
    """Gives falling resistances and rising capacitances."""
    resistances = sorted(rng.sample(range(1, most_resistance + 1), count), reverse=True)
    return list(zip(resistances, sorted(rng.sample(range(1, most_capacitance + 1), count))))


def random_segment(rng, number, parent, leaf, widths):
    """Gives a segment record of a layer that has widths; a leaf has a sink, others sometimes."""
    sink = leaf or rng.random() < 0.3
    capacitance, weight = (rng.randint(0, 100000), rng.randint(0, 255)) if sink else (0, 0)
    layer = rng.choice([layer for layer, count in enumerate(widths) if count])
    head = bytes([4, number, parent, sink]) + word(rng.randint(1, 1000)) + word(capacitance)
    return head + bytes([weight, *random_range(rng, widths[layer]), layer])


def random_weight(rng, segment):
    """Gives a weight record of a form at random; a fraction is a count of 256ths, 0 sometimes minus zero."""
    count = rng.randrange(256) if rng.random() < 0.9 else 0
    value = -0.0 if count == 0 and rng.random() < 0.5 else count / 256
    return rng.choice(
        [weight_record(segment, 0), weight_record(segment, 1, count), weight_record(segment, 2, 0, bits(value))]
    )


def random_job(rng, most_of_layer_1, most_repeaters=0, most_weights=0):
    """Gives a job that passes questions 1 to 11 and 20 to 24."""
    sizes, stages, segments = (rng.randint(1, most) for most in (16, 4, 64))
    widths = [rng.randint(1, 8), rng.randint(0, most_of_layer_1)]
    records = [
        bytes([1, at, layer, 0]) + word(r) + word(c) + word(0)
        for layer, count in enumerate(widths)
        for at, (r, c) in enumerate(random_table(rng, count, 100, 100))
    ]
    records += [
        bytes([2, at, 0, 0]) + word(r) + word(g) + word(rng.randint(0, 100000))
        for at, (r, g) in enumerate(random_table(rng, sizes, 100000, 100000))
    ]
    for at in range(stages):
        lowest, highest = random_range(rng, sizes)
        records.append(bytes([3, at, lowest, highest if at else lowest]) + bytes(12))
    parents = [rng.randint(0, at) for at in range(segments)]
    net = [random_segment(rng, at, parent, at + 1 not in parents, widths) for at, parent in enumerate(parents)]
    records += net
    sites = [at for at in range(segments) if at + 1 in parents]
    repeaters = sorted(rng.sample(sites, rng.randint(0, min(most_repeaters, len(sites)))))
    records += [bytes([5, at, site, *random_range(rng, sizes)]) + bytes(11) for at, site in enumerate(repeaters)]
    sinks = [segment[1] for segment in net if segment[3]]
    weighted = sorted(rng.sample(sinks, rng.randint(0, min(most_weights, len(sinks)))))
    records += [random_weight(rng, segment) for segment in weighted]
    return b"".join(records)


def random_record(rng, counts):
    """Gives a record near a valid one: most bytes zero, most numbers in order."""
    kind = rng.choice([1, 2, 3, 4, 4, 4, 5, 6, 6, rng.randrange(256)])
    record = bytearray(16)
    record[0] = kind
    for _ in range(rng.randrange(6)):
        record[rng.randrange(2, 16)] = rng.choice([1, 2, rng.randrange(256)])
    table = (kind, record[2]) if kind == 1 else kind
    record[1] = counts.get(table, 0) % 256 if rng.random() < 0.9 else rng.randrange(256)
    counts[table] = counts.get(table, 0) + 1
    return bytes(record)


def near_job(rng):
    """Gives records that are often, but not always, as they should be."""
    counts = {}
    return b"".join(random_record(rng, counts) for _ in range(rng.randrange(40)))


class Examples(unittest.TestCase):
    """The files of examples/."""

    def test_all_there(self):
        names = {path.stem for path in EXAMPLES.glob("*.txt")}
        self.assertLessEqual({"j1", "j2", "j3", "j4", "j5", "clock", "two_layers", "repeaters", "weights"}, names)

    def test_text_gives_job(self):
        for path in EXAMPLES.glob("*.txt"):
            with self.subTest(path.name):
                self.assertEqual(job.pack(path.read_text()), path.with_suffix(".job").read_bytes())

    def test_job_gives_text(self):
        for path in EXAMPLES.glob("*.txt"):
            with self.subTest(path.name):
                self.assertEqual(job.unpack(path.with_suffix(".job").read_bytes()), bare(path.read_text()))

    def test_j4_bytes(self):
        expected = """
            01 00 00 00  04 00 00 00  02 00 00 00  00 00 00 00
            01 01 00 00  02 00 00 00  03 00 00 00  00 00 00 00
            02 00 00 00  0a 00 00 00  03 00 00 00  01 00 00 00
            02 01 00 00  05 00 00 00  07 00 00 00  01 00 00 00
            03 00 00 00  00 00 00 00  00 00 00 00  00 00 00 00
            03 01 00 01  00 00 00 00  00 00 00 00  00 00 00 00
            04 00 00 01  01 00 00 00  04 00 00 00  01 00 01 00"""
        self.assertEqual((EXAMPLES / "j4.job").read_bytes(), bytes.fromhex(expected))

    def test_two_layers(self):
        data = (EXAMPLES / "two_layers.job").read_bytes()
        records = [data[at : at + 16] for at in range(0, len(data), 16)]
        widths = [(0, 0), (1, 0), (2, 0), (3, 0), (4, 0), (0, 1), (1, 1), (2, 1), (3, 1)]
        self.assertEqual([(record[1], record[2]) for record in records if record[0] == 1], widths)
        self.assertEqual([record[15] for record in records if record[0] == 4], [1] * 2 + [0] * 14)

    def test_repeaters(self):
        data = (EXAMPLES / "repeaters.job").read_bytes()
        records = [data[at : at + 16] for at in range(0, len(data), 16)]
        self.assertEqual([record[0] for record in records[-5:]], [4, 5, 5, 5, 5])
        repeaters = records[-4:]
        self.assertEqual([record[1] for record in repeaters], [0, 1, 2, 3])
        parents = [record[2] for record in records if record[0] == 4]
        for site in (record[2] for record in repeaters):
            self.assertIn(1 + site, parents)

    def test_weights(self):
        data = (EXAMPLES / "weights.job").read_bytes()
        self.assertEqual([data[at] for at in range(len(data) - 96, len(data), 16)], [4, 6, 6, 6, 6, 6])
        expected = """
            06 03 02 00  00 00 00 00  00 00 00 00  00 00 e0 3f
            06 04 02 00  00 00 00 00  00 00 00 00  00 00 d0 3f
            06 06 01 00  19 00 00 00  00 00 00 00  00 00 00 00
            06 07 02 00  00 00 00 00  00 00 00 00  00 00 9c 3f
            06 08 00 00  00 00 00 00  00 00 00 00  00 00 00 00"""
        self.assertEqual(data[-80:], bytes.fromhex(expected))


class Text(unittest.TestCase):
    """What the text form allows."""

    def same(self, text, other):
        """Asks that two texts give one job."""
        self.assertEqual(job.pack(text), job.pack(other))

    def test_fields_in_any_order(self):
        self.same("width capacitance 2 resistance 4", "width resistance 4 capacitance 2")
        self.same(
            "segment sink weight 1 capacitance 4 width 0 length 1 parent source",
            "segment parent source length 1 width 0 sink capacitance 4 weight 1",
        )

    def test_comments_blanks_and_line_ends(self):
        plain = "width resistance 4 capacitance 2\nwidth resistance 2 capacitance 3\n"
        self.same("# c\n\n  width resistance 4 capacitance 2#x\n\twidth  resistance 2 capacitance 3", plain)
        self.same(plain.replace("\n", "\r\n"), plain)
        self.same("# c\r" + plain.replace("\n", "\r"), plain)

    def test_one_index(self):
        self.same("stage sizes 3..3", "stage size 3")
        self.assertEqual(job.unpack(job.pack("stage sizes 3..3")), "stage size 3\n")

    def test_jobs_to_be_refused(self):
        for line in (
            "width resistance 0 capacitance 4294967295",
            "stage sizes 9..2",
            "segment parent 254 length 0 widths 255..0 sink capacitance 0 weight 0",
        ):
            self.assertEqual(job.unpack(job.pack(line)), line + "\n")

    def test_empty(self):
        self.assertEqual(job.pack("# nothing\n\n"), b"")
        self.assertEqual(job.unpack(b""), "")

    def test_leading_zeros(self):
        self.same("stage size " + "0" * 5000 + "7", "stage size 7")

    def test_raw_counts_by_its_kind(self):
        raw = "raw 01 07 00 00 00 00 00 00 00 00 00 00 00 00 00 00\n"
        packed = job.pack(raw + "width resistance 1 capacitance 1\n")
        self.assertEqual(packed[16:18], bytes([1, 1]))

    def test_raw_that_has_fields(self):
        raw = "raw 03 00 00 01" + " 00" * 12
        self.assertEqual(job.unpack(job.pack(raw)), "stage sizes 0..1\n")


WIDTHS = "width resistance 4 capacitance 2\nwidth resistance 2 capacitance 3\n"
THICK = "width layer 1 resistance 3 capacitance 1\nwidth layer 1 resistance 1 capacitance 5\n"


class Exact(unittest.TestCase):
    """Texts and their bytes."""

    def gives(self, text, expected):
        """Asks that a text gives these bytes and comes back from them as it was."""
        self.assertEqual(job.pack(text), bytes.fromhex(expected))
        self.assertEqual(job.unpack(job.pack(text)), text)


class Layers(Exact):
    """The layer of a width and of a segment."""

    def test_one_layer(self):
        self.gives(
            WIDTHS + "segment parent source length 1 widths 0..1 sink capacitance 4 weight 1\n",
            """
            01 00 00 00  04 00 00 00  02 00 00 00  00 00 00 00
            01 01 00 00  02 00 00 00  03 00 00 00  00 00 00 00
            04 00 00 01  01 00 00 00  04 00 00 00  01 00 01 00""",
        )

    def test_two_layers(self):
        self.gives(
            WIDTHS
            + THICK
            + "segment parent source layer 1 length 1 width 1\n"
            + "segment parent 0 length 1 widths 0..1 sink capacitance 4 weight 1\n"
            + "segment parent 0 layer 1 length 1 widths 0..1 sink capacitance 4 weight 1\n",
            """
            01 00 00 00  04 00 00 00  02 00 00 00  00 00 00 00
            01 01 00 00  02 00 00 00  03 00 00 00  00 00 00 00
            01 00 01 00  03 00 00 00  01 00 00 00  00 00 00 00
            01 01 01 00  01 00 00 00  05 00 00 00  00 00 00 00
            04 00 00 00  01 00 00 00  00 00 00 00  00 01 01 01
            04 01 01 01  01 00 00 00  04 00 00 00  01 00 01 00
            04 02 01 01  01 00 00 00  04 00 00 00  01 00 01 01""",
        )

    def test_layer_0_is_read_and_not_written(self):
        segment = "segment parent source length 1 width 0 sink capacitance 4 weight 1\n"
        named = WIDTHS.replace("width", "width layer 0") + segment.replace("length", "layer 0 length")
        self.assertEqual(named.count("layer 0"), 3)
        self.assertEqual(job.pack(named), job.pack(WIDTHS + segment))
        self.assertEqual(job.unpack(job.pack(named)), WIDTHS + segment)

    def test_in_any_order(self):
        self.assertEqual(job.pack("width resistance 3 capacitance 1 layer 1"), job.pack(THICK)[:16])
        self.assertEqual(
            job.unpack(job.pack("segment width 0 length 1 parent source layer 1")),
            "segment parent source layer 1 length 1 width 0\n",
        )

    def test_above_1(self):
        self.gives("width layer 2 resistance 4 capacitance 2\n", "01 00 02 00  04 00 00 00  02 00 00 00  00 00 00 00")
        self.gives("segment parent source layer 2 length 1 width 0\n", "04 00 00 00  01 00 00 00" + " 00" * 7 + "02")
        self.gives("segment parent source layer 255 length 1 width 0\n", "04 00 00 00  01 00 00 00" + " 00" * 7 + "ff")

    def test_layers_that_fall(self):
        self.gives(
            THICK + WIDTHS,
            """
            01 00 01 00  03 00 00 00  01 00 00 00  00 00 00 00
            01 01 01 00  01 00 00 00  05 00 00 00  00 00 00 00
            01 00 00 00  04 00 00 00  02 00 00 00  00 00 00 00
            01 01 00 00  02 00 00 00  03 00 00 00  00 00 00 00""",
        )

    def test_numbers_go_on_where_a_layer_comes_back(self):
        self.gives(
            "".join(line + "\n" for pair in zip(WIDTHS.splitlines(), THICK.splitlines()) for line in pair),
            """
            01 00 00 00  04 00 00 00  02 00 00 00  00 00 00 00
            01 00 01 00  03 00 00 00  01 00 00 00  00 00 00 00
            01 01 00 00  02 00 00 00  03 00 00 00  00 00 00 00
            01 01 01 00  01 00 00 00  05 00 00 00  00 00 00 00""",
        )

    def test_widths_numbered_through_both_layers_are_raw(self):
        line = "raw 01 02 01 00 03 00 00 00 01 00 00 00 00 00 00 00\n"
        self.assertEqual(job.unpack(job.pack(WIDTHS + line)), WIDTHS + line)

    def test_segments_are_numbered_through_both_layers(self):
        text = "segment parent source layer 1 length 1 width 0\nsegment parent 0 length 1 width 0\n" * 2
        self.assertEqual([job.pack(text)[at] for at in (1, 17, 33, 49)], [0, 1, 2, 3])
        self.assertEqual(job.unpack(job.pack(text)), text)

    def test_raw_counts_by_its_layer(self):
        raw = "raw 01 07 01 00 00 00 00 00 00 00 00 00 00 00 00 00\n"
        packed = job.pack(raw + THICK + WIDTHS)
        self.assertEqual([packed[at] for at in (17, 33, 49, 65)], [1, 2, 0, 1])

    def test_more_than_256_of_a_layer(self):
        with self.assertRaisesRegex(job.Wrong, "^text:259: the number of this width, 256, does not fit in 1 byte"):
            job.pack(WIDTHS + "width layer 1 resistance 1 capacitance 1\n" * 257)


class Repeaters(Exact):
    """The lines of repeaters."""

    def test_behind_the_segments(self):
        self.gives(
            "segment parent source length 1 width 0\n"
            "segment parent 0 length 1 width 0 sink capacitance 4 weight 1\n"
            "repeater segment 0 sizes 0..2\n"
            "repeater segment 3 size 1\n",
            """
            04 00 00 00  01 00 00 00  00 00 00 00  00 00 00 00
            04 01 01 01  01 00 00 00  04 00 00 00  01 00 00 00
            05 00 00 00  02 00 00 00  00 00 00 00  00 00 00 00
            05 01 03 01  01 00 00 00  00 00 00 00  00 00 00 00""",
        )

    def test_segment_is_its_number(self):
        self.assertEqual([job.pack(f"repeater segment {at} size 0")[2] for at in (0, 1, 63, 255)], [0, 1, 63, 255])

    def test_in_any_order(self):
        self.assertEqual(job.pack("repeater sizes 0..2 segment 3"), job.pack("repeater segment 3 sizes 0..2"))
        self.assertEqual(job.unpack(job.pack("repeater sizes 2..2 segment 3")), "repeater segment 3 size 2\n")

    def test_to_be_refused(self):
        self.gives("repeater segment 64 sizes 9..2\n", "05 00 40 09 02" + " 00" * 11)
        self.gives("repeater segment 255 sizes 0..255\n", "05 00 ff 00 ff" + " 00" * 11)
        self.gives(
            "repeater segment 1 size 0\nrepeater segment 1 size 0\nrepeater segment 0 size 0\n",
            "05 00 01 00" + " 00" * 12 + "05 01 01 00" + " 00" * 12 + "05 02 00 00" + " 00" * 12,
        )
        self.gives(
            "repeater segment 0 size 0\nsegment parent source length 1 width 0\n",
            "05 00" + " 00" * 14 + "04 00 00 00 01" + " 00" * 11,
        )

    def test_numbered_by_themselves(self):
        text = "stage size 0\n" + "segment parent source length 1 width 0\n" * 3 + "repeater segment 0 size 0\n" * 2
        self.assertEqual([job.pack(text)[at] for at in (1, 17, 33, 49, 65, 81)], [0, 0, 1, 2, 0, 1])

    def test_unnamed_bytes_are_raw(self):
        for at in range(5, 16):
            data = bytes([5, 0, 3, 0, 2] + [0] * 11)
            data = data[:at] + b"\1" + data[at + 1 :]
            self.assertEqual(job.unpack(data), "raw " + data.hex(" ") + "\n")
            self.assertEqual(job.pack(job.unpack(data)), data)

    def test_more_than_256(self):
        with self.assertRaisesRegex(job.Wrong, "^text:257: the number of this repeater, 256, does not fit in 1 byte"):
            job.pack("repeater segment 0 size 0\n" * 257)


class Returning(unittest.TestCase):
    """Bytes that come back from their text."""

    def returns(self, data):
        """Asks that bytes come back from their text, and gives the text."""
        text = job.unpack(data)
        self.assertEqual(job.pack(text), data)
        return text


class Weights(Exact, Returning):
    """The lines of weights."""

    def shown(self, pattern):
        """Gives the word behind `fraction`, or `raw`, for the bits of a binary64 that come back from their text."""
        text = self.returns(weight_record(3, 2, 0, pattern))
        start = "weight segment 3 fraction "
        self.assertTrue(text.startswith(start) or text.startswith("raw 06 03 02 00 "))
        return text[len(start) : -1] if text.startswith(start) else "raw"

    def test_each_form(self):
        self.gives(
            "segment parent source length 1 width 0 sink capacitance 4 weight 9\n"
            "repeater segment 0 size 0\n"
            "weight segment 3 absent\n"
            "weight segment 4 whole 7\n"
            "weight segment 5 fraction 0.02734375\n",
            """
            04 00 00 01  01 00 00 00  04 00 00 00  09 00 00 00
            05 00 00 00  00 00 00 00  00 00 00 00  00 00 00 00
            06 03 00 00  00 00 00 00  00 00 00 00  00 00 00 00
            06 04 01 00  07 00 00 00  00 00 00 00  00 00 00 00
            06 05 02 00  00 00 00 00  00 00 00 00  00 00 9c 3f""",
        )

    def test_in_any_order(self):
        for form in ("absent", "whole 7", "fraction 0.5"):
            line = f"weight segment 3 {form}"
            self.assertEqual(job.pack(f"weight {form} segment 3"), job.pack(line))
            self.assertEqual(job.unpack(job.pack(line)), line + "\n")

    def test_the_segment_is_given_and_not_counted(self):
        numbers = [9, 3, 3, 0, 255]
        text = "".join(f"weight segment {number} absent\n" for number in numbers)
        self.gives(text, "".join(f"06 {number:02x}" + " 00" * 14 for number in numbers))

    def test_more_than_256(self):
        text = "weight segment 0 whole 1\n" * 257
        self.assertEqual(self.returns(job.pack(text)), text)

    def test_weights_are_not_counted_with_other_kinds(self):
        weight, segment = "weight segment 7 absent\n", "segment parent source length 1 width 0\n"
        packed = job.pack(weight + segment + weight + "repeater segment 0 size 0\n" + weight + segment)
        self.assertEqual([packed[at] for at in (17, 49, 81)], [0, 0, 1])

    def test_whole_numbers_to_be_refused(self):
        self.gives("weight segment 64 whole 256\n", "06 40 01 00 00 01" + " 00" * 10)
        self.gives("weight segment 0 whole 4294967295\n", "06 00 01 00 ff ff ff ff" + " 00" * 8)

    def test_fractions_and_their_bits(self):
        for shown, pattern in (
            ("0.0", 0),
            ("-0.0", 1 << 63),
            ("0.00390625", 0x3F70000000000000),
            ("0.5", 0x3FE0000000000000),
            ("0.99609375", 0x3FEFE00000000000),
            ("1.0", 0x3FF0000000000000),
            ("-0.5", 0xBFE0000000000000),
            ("0.1", 0x3FB999999999999A),
            ("0.3", 0x3FD3333333333333),
            ("0.30000000000000004", 0x3FD3333333333334),
            ("1e-05", 0x3EE4F8B588E368F1),
            ("1e+16", 0x4341C37937E08000),
            ("5e-324", 1),
            ("2.225073858507201e-308", 0x000FFFFFFFFFFFFF),
            ("2.2250738585072014e-308", 0x0010000000000000),
            ("1.7976931348623157e+308", 0x7FEFFFFFFFFFFFFF),
            ("-1.7976931348623157e+308", 0xFFEFFFFFFFFFFFFF),
        ):
            with self.subTest(shown):
                self.assertEqual(job.pack(f"weight segment 3 fraction {shown}"), weight_record(3, 2, 0, pattern))
                self.assertEqual(self.shown(pattern), shown)

    def test_many_ways_to_write_a_fraction(self):
        expected = job.pack("weight segment 3 fraction 0.02734375")
        longer = "0.02734375" + "0" * 5000
        nearest = "0.02734375" + "0" * 20 + "1"
        exponents = ("2734375e-8", "2.734375E-02", "00.02734375e0", "0.00002734375e+3")
        for written in ("+0.02734375", longer, nearest, *exponents):
            self.assertEqual(job.pack(f"weight segment 3 fraction {written}"), expected, written)
        for written, shown in (
            ("0", "0.0"),
            ("-0", "-0.0"),
            ("-0e5", "-0.0"),
            ("1", "1.0"),
            ("1e-3", "0.001"),
            ("1e-400", "0.0"),
            ("-1e-400", "-0.0"),
            ("0e99999999999999999999", "0.0"),
            ("1.7976931348623157e308", "1.7976931348623157e+308"),
            ("0.1000000000000000055511151231257827021181583404541015625", "0.1"),
            ("9" * 300, "1e+300"),
        ):
            text = job.unpack(job.pack(f"weight segment 3 fraction {written}"))
            self.assertEqual(text, f"weight segment 3 fraction {shown}\n")

    def test_counts_and_their_neighbours(self):
        for count in range(256):
            pattern = bits(count / 256)
            shown = self.shown(pattern)
            self.assertRegex(shown, r"^0\.[0-9]+$")
            self.assertEqual(Fraction(shown), Fraction(count, 256))
            next_to = [pattern - 1, pattern + 1] if count else [1, 1 << 63 | 1]
            words = [self.shown(other) for other in next_to]
            self.assertEqual(len({shown, "raw", *words}), 4)
            self.assertEqual([bits(float(other)) for other in words], next_to)

    def test_random_binary64(self):
        rng = random.Random(6)
        for _ in range(20000):
            pattern = rng.getrandbits(64)
            if rng.random() < 0.2:
                pattern |= 0x7FF << 52
            elif rng.random() < 0.2:
                pattern &= ~(0x7FF << 52)
            shown = self.shown(pattern)
            self.assertEqual(shown == "raw", pattern >> 52 & 0x7FF == 0x7FF)
            if shown != "raw":
                self.assertEqual(bits(float(shown)), pattern)

    def test_what_is_no_number_is_raw(self):
        infinity, sign = 0x7FF << 52, 1 << 63
        for pattern in (infinity, infinity | 1, infinity | 1 << 51, infinity | (1 << 52) - 1):
            self.assertEqual(self.shown(pattern), "raw")
            self.assertEqual(self.shown(sign | pattern), "raw")

    def test_each_unnamed_byte_is_raw(self):
        named = {0: range(3), 1: (0, 1, 2, 4, 5, 6, 7), 2: (0, 1, 2, *range(8, 16))}
        for form, kept in named.items():
            for at in range(16):
                data = bytearray(weight_record(3, form))
                data[at] |= 128 if at > 2 else 0
                raw = self.returns(bytes(data)).startswith("raw ")
                self.assertEqual(raw, at not in kept, (form, at))

    def test_each_form_above_2_is_raw(self):
        for form in range(256):
            self.assertEqual(self.returns(weight_record(3, form)).startswith("raw "), form > 2)

    def test_random_records(self):
        rng = random.Random(7)
        lines = []
        for _ in range(20000):
            data = bytearray([6, *rng.randbytes(15)])
            if rng.random() < 0.8:
                data[2:4] = [rng.choice([0, 1, 2, 2, 3]), 0]
            for first, last in ((4, 8), (8, 16)):
                if rng.random() < 0.6:
                    data[first:last] = bytes(last - first)
            lines.append(self.returns(bytes(data)))
        for form in ("absent", "whole", "fraction"):
            self.assertGreater(sum(f" {form}" in line for line in lines), 400)
        self.assertGreater(sum(line.startswith("raw ") for line in lines), 400)


class Bytes(Returning):
    """Whole records come back as they were."""

    def test_random_bytes(self):
        rng = random.Random(1)
        for _ in range(3000):
            self.returns(rng.randbytes(16 * rng.randrange(12)))

    def test_near_jobs(self):
        rng = random.Random(2)
        lines = "".join(self.returns(near_job(rng)) for _ in range(2000)).split("\n")
        raw = sum(line.startswith("raw") for line in lines)
        self.assertTrue(0.1 < raw / len(lines) < 0.9)

    def test_valid_jobs_need_no_raw(self):
        rng = random.Random(3)
        for _ in range(500):
            text = self.returns(random_job(rng, 0))
            self.assertNotIn("raw", text)
            self.assertNotIn("layer", text)

    def test_valid_jobs_of_two_layers_need_no_raw(self):
        rng = random.Random(4)
        for _ in range(500):
            data = random_job(rng, 8)
            text = self.returns(data)
            self.assertNotIn("raw", text)
            layers = [data[at + (2 if data[at] == 1 else 15)] for at in range(0, len(data), 16) if data[at] in (1, 4)]
            self.assertEqual(text.count("layer 1"), sum(layers))
            self.assertEqual(text.count("layer"), sum(layers))

    def test_valid_jobs_with_repeaters_need_no_raw(self):
        rng = random.Random(5)
        counts = set()
        for _ in range(500):
            data = random_job(rng, 8, 8)
            text = self.returns(data)
            self.assertNotIn("raw", text)
            repeaters = [data[at : at + 16] for at in range(0, len(data), 16) if data[at] == 5]
            lines = [line.split() for line in text.splitlines() if line.startswith("repeater ")]
            self.assertEqual([int(line[2]) for line in lines], [record[2] for record in repeaters])
            self.assertTrue(text.splitlines()[-len(lines) - 1].startswith("segment "))
            counts.add(len(repeaters))
        self.assertEqual(counts, set(range(9)))

    def test_valid_jobs_with_weights_need_no_raw(self):
        rng = random.Random(8)
        forms = set()
        for _ in range(500):
            data = random_job(rng, 8, 8, 64)
            text = self.returns(data)
            self.assertNotIn("raw", text)
            weights = [data[at : at + 16] for at in range(0, len(data), 16) if data[at] == 6]
            lines = [line.split() for line in text.splitlines() if line.startswith("weight ")]
            self.assertEqual([int(line[2]) for line in lines], [record[1] for record in weights])
            self.assertEqual([line[3] for line in lines], [job.FORMS[record[2]] for record in weights])
            self.assertTrue(text.endswith("".join(" ".join(line) + "\n" for line in lines)))
            forms.update(record[2] for record in weights)
        self.assertEqual(forms, {0, 1, 2})

    def test_each_byte_of_a_weight(self):
        data = (EXAMPLES / "weights.job").read_bytes()
        first = min(at for at in range(0, len(data), 16) if data[at] == 6)
        for at in range(first, len(data)):
            for value in (0, 1, 2, 3, 5, 6, 7, 127, 128, 240, 255):
                self.returns(data[:at] + bytes([value]) + data[at + 1 :])

    def test_each_byte_of_a_repeater(self):
        data = (EXAMPLES / "repeaters.job").read_bytes()
        for at in range(len(data) - 64, len(data)):
            for value in (0, 1, 2, 3, 4, 5, 6, 128, 255):
                self.returns(data[:at] + bytes([value]) + data[at + 1 :])

    def test_each_byte_of_an_example(self):
        data = (EXAMPLES / "j4.job").read_bytes()
        for at in range(len(data)):
            for value in (0, 1, 2, 3, 4, 5, 128, 255):
                self.returns(data[:at] + bytes([value]) + data[at + 1 :])

    def test_each_layer_byte_of_an_example(self):
        data = (EXAMPLES / "two_layers.job").read_bytes()
        for at in (place for place in range(len(data)) if place % 16 in (1, 2, 15)):
            for value in (0, 1, 2, 255):
                self.returns(data[:at] + bytes([value]) + data[at + 1 :])

    def test_more_than_256_of_a_kind(self):
        stage = bytes([3]) + bytes(15)
        counted = b"".join(bytes([3, at]) + bytes(14) for at in range(256))
        self.assertTrue(self.returns(counted + stage).endswith("raw 03" + " 00" * 15 + "\n"))

    def test_shown_raw(self):
        for line in (
            "raw 01 01 00 00 04 00 00 00 02 00 00 00 00 00 00 00",  # number 1 first
            "raw 01 00 00 00 04 00 00 00 02 00 00 00 00 00 00 01",  # an unnamed byte
            "raw 01 00 01 01 04 00 00 00 02 00 00 00 00 00 00 00",  # the unnamed byte beside a layer
            "raw 01 01 01 00 04 00 00 00 02 00 00 00 00 00 00 00",  # number 1 first in layer 1
            "raw 04 00 00 02 01 00 00 00 04 00 00 00 01 00 01 00",  # sink byte 2
            "raw 04 00 00 00 01 00 00 00 04 00 00 00 00 00 01 00",  # capacitance without sink
            "raw 04 00 00 00 01 00 00 00 00 00 00 00 01 00 01 00",  # weight without sink
            "raw 04 00 00 00 01 00 00 00 04 00 00 00 01 00 01 00",  # both without sink
            "raw 04 00 00 00 01 00 00 00 00 00 00 80 00 00 01 00",  # highest byte of a capacitance without sink
            "raw 00 00 00 00 00 00 00 00 00 00 00 00 00 00 00 00",  # no kind
            "raw 05 01 00 00 00 00 00 00 00 00 00 00 00 00 00 00",  # repeater 1 first
            "raw 05 00 00 00 00 01 00 00 00 00 00 00 00 00 00 00",  # an unnamed byte of a repeater
            "raw 07 00 00 00 00 00 00 00 00 00 00 00 00 00 00 00",  # a kind behind weights
            "raw 06 03 03 00 00 00 00 00 00 00 00 00 00 00 00 00",  # form 3
            "raw 06 03 02 00 00 00 00 00 00 00 00 00 00 00 f0 7f",  # an infinity
            "raw 06 03 02 00 00 00 00 00 00 00 00 00 00 00 f8 7f",  # a NaN
        ):
            self.assertEqual(job.unpack(job.pack(line)), line + "\n")

    def test_part_record(self):
        with self.assertRaisesRegex(job.Wrong, "^x.job: 17 bytes are not whole records of 16 bytes$"):
            job.unpack(bytes(17), "x.job")


class Errors(unittest.TestCase):
    """Messages for wrong text."""

    def wrong(self, line, message):
        """Asks for a message about the third line."""
        with self.assertRaises(job.Wrong) as caught:
            job.pack(f"# first\n\n{line}\n", "net.txt")
        self.assertEqual(str(caught.exception), "net.txt:3: " + message)

    def test_words(self):
        self.wrong(
            "widht", "unknown word 'widht'; a line starts with width, size, stage, segment, repeater, weight or raw"
        )
        self.wrong(
            "width resistence 4",
            "unknown word 'resistence' after width; its words are layer, resistance, capacitance",
        )
        self.wrong(
            "segment parent 0 7",
            "unknown word '7' after segment; "
            "its words are parent, layer, length, width, widths, sink, capacitance, weight",
        )
        self.wrong("width resistance 4 resistance 4", "resistance twice")
        self.wrong("width resistance 4 capacitance", "capacitance has no value")
        self.wrong("width resistance capacitance 2", "resistance has no value")

    def test_missing_fields(self):
        self.wrong("width", "width lacks its resistance")
        self.wrong("width resistance 4", "width lacks its capacitance")
        self.wrong("size resistance 4 gate 2", "size lacks its output")
        self.wrong("stage", "stage lacks its sizes, as in 'sizes 0..1' or 'size 0'")
        self.wrong("segment length 1 width 0", "segment lacks its parent")
        self.wrong("segment parent source width 0", "segment lacks its length")
        self.wrong("segment parent 0 length 1", "segment lacks its widths, as in 'widths 0..1' or 'width 0'")
        self.wrong("segment parent 0 length 1 width 0 sink weight 1", "sink lacks its capacitance")
        self.wrong("segment parent 0 length 1 width 0 sink capacitance 1", "sink lacks its weight")

    def test_values(self):
        self.wrong("stage size -1", "size wants a whole number, not '-1'")
        self.wrong("stage size ²", "size wants a whole number, not '²'")
        self.wrong(
            "width resistance 4294967296 capacitance 2",
            "resistance 4294967296 does not fit in 4 bytes (at most 4294967295)",
        )
        self.wrong("stage size 256", "size 256 does not fit in 1 byte (at most 255)")
        self.wrong("stage sizes 0..256", "sizes 256 does not fit in 1 byte (at most 255)")
        self.wrong(
            "segment parent 0 length 1 width 0 sink capacitance 1 weight 256",
            "weight 256 does not fit in 1 byte (at most 255)",
        )
        self.wrong("segment parent 255 length 1 width 0", "parent 255 does not fit in its byte (at most 254)")
        self.wrong(
            "segment parent root length 1 width 0", "parent wants 'source' or a segment's number, not 'root'"
        )
        long = "9" * 5000
        self.wrong("stage size " + long, f"size {long} does not fit in 1 byte (at most 255)")

    def test_layers(self):
        self.wrong("width layer 256 resistance 4 capacitance 2", "layer 256 does not fit in 1 byte (at most 255)")
        self.wrong("segment parent 0 layer 256 length 1 width 0", "layer 256 does not fit in 1 byte (at most 255)")
        self.wrong("width layer top resistance 4 capacitance 2", "layer wants a whole number, not 'top'")
        self.wrong("segment parent 0 layer -1 length 1 width 0", "layer wants a whole number, not '-1'")
        self.wrong("width layer resistance 4 capacitance 2", "layer has no value")
        self.wrong("width layer 1 layer 1 resistance 4 capacitance 2", "layer twice")
        self.wrong("width layer 1", "width lacks its resistance")
        self.wrong(
            "size layer 1 resistance 4 gate 2 output 1",
            "unknown word 'layer' after size; its words are resistance, gate, output",
        )
        self.wrong("stage layer 1 size 0", "unknown word 'layer' after stage; its words are size, sizes")

    def test_repeaters(self):
        self.wrong("repeater", "repeater lacks its segment")
        self.wrong("repeater size 0", "repeater lacks its segment")
        self.wrong("repeater segment 3", "repeater lacks its sizes, as in 'sizes 0..1' or 'size 0'")
        self.wrong("repeater segment 256 size 0", "segment 256 does not fit in 1 byte (at most 255)")
        self.wrong("repeater segment source size 0", "segment wants a whole number, not 'source'")
        self.wrong("repeater segment size 0", "segment has no value")
        self.wrong("repeater segment 3 segment 3 size 0", "segment twice")
        self.wrong("repeater segment 3 size 256", "size 256 does not fit in 1 byte (at most 255)")
        self.wrong("repeater segment 3 size 0..1", "size takes one index; a range is 'sizes 0..1'")
        self.wrong("repeater segment 3 sizes 0", "sizes wants a range as in 'sizes 0..1', not '0'")
        self.wrong("repeater segment 3 size 0 sizes 0..1", "size and sizes in one line")
        self.wrong(
            "repeater segment 3 width 0", "unknown word 'width' after repeater; its words are segment, size, sizes"
        )

    def test_weights(self):
        lacks = "weight lacks its form, as in 'absent', 'whole 7' or 'fraction 0.5'"
        self.wrong("weight", "weight lacks its segment")
        self.wrong("weight absent", "weight lacks its segment")
        self.wrong("weight segment 3", lacks)
        self.wrong("weight segment", "segment has no value")
        self.wrong("weight segment absent", "segment has no value")
        self.wrong("weight segment 256 absent", "segment 256 does not fit in 1 byte (at most 255)")
        self.wrong("weight segment source absent", "segment wants a whole number, not 'source'")
        self.wrong("weight segment 3 segment 3 absent", "segment twice")
        self.wrong("weight segment 3 absent absent", "absent twice")
        self.wrong("weight segment 3 absent whole 7", "absent and whole in one line")
        self.wrong("weight segment 3 fraction 0.5 whole 7", "whole and fraction in one line")
        self.wrong("weight fraction 0.5 whole 7 absent segment 3", "absent and whole and fraction in one line")
        words = "its words are segment, absent, whole, fraction"
        self.wrong("weight segment 3 absent 7", f"unknown word '7' after weight; {words}")
        self.wrong("weight segment 3 7", f"unknown word '7' after weight; {words}")
        self.wrong("weight 3 whole 7", f"unknown word '3' after weight; {words}")
        self.wrong("weight segment 3 form 0", f"unknown word 'form' after weight; {words}")

    def test_whole_weights(self):
        self.wrong("weight segment 3 whole", "whole has no value")
        self.wrong("weight whole segment 3", "whole has no value")
        self.wrong("weight segment 3 whole 7.0", "whole wants a whole number, not '7.0'")
        self.wrong("weight segment 3 whole -0", "whole wants a whole number, not '-0'")
        self.wrong(
            "weight segment 3 whole 4294967296", "whole 4294967296 does not fit in 4 bytes (at most 4294967295)"
        )

    def test_fractions(self):
        self.wrong("weight segment 3 fraction", "fraction has no value")
        self.wrong("weight fraction segment 3", "fraction has no value")
        for word in (
            *("nan", "-nan", "inf", "-inf", "Infinity", "0x1p-8", "0x1.cp-6", "1_0", "0.5_0", "1e1_0", "7/256"),
            *(".5", "5.", "-.5", "1.e3", "1e", "1e+", "e5", "1e2.5", "--1", "+-1", "-", ".", "0,5", "0.5f", "1.2.3"),
            *("½", "٣"),
        ):
            self.wrong(f"weight segment 3 fraction {word}", f"fraction wants a decimal number, not {word!r}")
        long = "9" * 5000
        for word in ("1e400", "-1e400", "1.7976931348623159e308", "1e99999999999999999999", long):
            self.wrong(
                f"weight segment 3 fraction {word}",
                f"fraction {word} does not fit in 8 bytes (at most 1.7976931348623157e+308, of either sign)",
            )

    def test_ranges(self):
        self.wrong("stage size 0..1", "size takes one index; a range is 'sizes 0..1'")
        self.wrong("stage sizes 0", "sizes wants a range as in 'sizes 0..1', not '0'")
        self.wrong("stage sizes 0..1..2", "sizes wants a range as in 'sizes 0..1', not '0..1..2'")
        self.wrong("stage sizes 0..", "sizes wants a whole number, not ''")
        self.wrong("stage size 0 sizes 0..1", "size and sizes in one line")

    def test_sink(self):
        self.wrong("segment parent 0 length 1 width 0 weight 0", "weight in a segment without the word sink")

    def test_raw(self):
        self.wrong("raw 00 01", "raw wants 16 bytes, not 2")
        self.wrong("raw 00 1", "raw wants bytes of two hexadecimal digits, not '1'")

    def test_number(self):
        with self.assertRaisesRegex(job.Wrong, "^text:257: the number of this stage, 256, does not fit in 1 byte"):
            job.pack("stage size 0\n" * 257)

    def test_every_line(self):
        with self.assertRaises(job.Wrong) as caught:
            job.pack("width\nstage size 0\nsize\n")
        self.assertEqual(str(caught.exception), "text:1: width lacks its resistance\ntext:3: size lacks its resistance")


J4_REPLY = bytes.fromhex("0401000000000000 0000000000000000 0001000000000000 0001000000000000")
J4_TEXT = "delay 260\nstage 0 0 0 0 0\nstage 1 0 1 0 0\nsegment 0 0 1 0 0\n"


REPEATED = """stage size 0
segment parent source length 1 width 0
segment parent 0 length 1 width 0 sink capacitance 4 weight 1
repeater segment 0 sizes 0..1
"""


class Replies(unittest.TestCase):
    """Replies as text."""

    def setUp(self):
        self.places = job.places_of((EXAMPLES / "j4.job").read_bytes())

    def wrong(self, reply, message):
        """Asks for a message about a reply to J4."""
        with self.assertRaises(job.Wrong) as caught:
            job.reply_text(reply, self.places)
        self.assertEqual(str(caught.exception), "reply: " + message)

    def test_finished(self):
        self.assertEqual(job.reply_text(J4_REPLY, self.places), J4_TEXT)

    def test_without_job(self):
        expected = "delay 260\nplace 0 0 0 0 0\nplace 1 0 1 0 0\nplace 2 0 1 0 0\n"
        self.assertEqual(job.reply_text(J4_REPLY), expected)

    def test_bounds_only(self):
        reply = bytes([255] * 8) + bytes.fromhex("0000ffff00000000 0001ffff00000000 0001ffff00000000")
        self.assertEqual(job.reply_text(reply, self.places), "stage 0 0 0 - -\nstage 1 0 1 - -\nsegment 0 0 1 - -\n")

    def test_repeaters_behind_the_segments(self):
        places = job.places_of(job.pack(REPEATED))
        reply = bytes.fromhex("0401000000000000" + "0000000000000000" * 3 + "0001000100000000")
        expected = "delay 260\nstage 0 0 0 0 0\nsegment 0 0 0 0 0\nsegment 1 0 0 0 0\nrepeater 0 0 1 0 1\n"
        self.assertEqual(job.reply_text(reply, places), expected)
        bounds = b"\xff" * 8 + bytes.fromhex("0000ffff00000000" * 3 + "0001ffff00000000")
        expected = "stage 0 0 0 - -\nsegment 0 0 0 - -\nsegment 1 0 0 - -\nrepeater 0 0 1 - -\n"
        self.assertEqual(job.reply_text(bounds, places), expected)
        with self.assertRaisesRegex(job.Wrong, "^reply: the reply has 3 places and the job 4$"):
            job.reply_text(reply[:-8], places)

    def test_weights_are_no_places(self):
        weights = "weight segment 1 fraction 0.5\n"
        self.assertEqual(job.places_of(job.pack(REPEATED + weights)), job.places_of(job.pack(REPEATED)))

    def test_large_delay(self):
        reply = (2**63 - 1).to_bytes(8, "little") + J4_REPLY[8:]
        self.assertTrue(job.reply_text(reply).startswith("delay 9223372036854775807\n"))

    def test_not_a_reply(self):
        self.wrong(b"", "0 bytes are not a delay and places of 8 bytes each")
        self.wrong(J4_REPLY[:8], "8 bytes are not a delay and places of 8 bytes each")
        self.wrong(J4_REPLY[:-1], "31 bytes are not a delay and places of 8 bytes each")
        self.wrong(J4_REPLY[:-8], "the reply has 2 places and the job 3")
        self.wrong(J4_REPLY[:-1] + b"\1", "not a reply: segment 0 is 00 01 00 00 00 00 00 01")
        self.wrong(bytes([255] * 8) + J4_REPLY[8:], "not a reply: stage 0 is 00 00 00 00 00 00 00 00")
        self.wrong(J4_REPLY[:10] + b"\xff" + J4_REPLY[11:], "not a reply: stage 0 is 00 00 ff 00 00 00 00 00")


class Program(unittest.TestCase):
    """The tool run as a program."""

    def test_standard_streams(self):
        text = (EXAMPLES / "j4.txt").read_bytes()
        packed = run("pack", data=text)
        self.assertEqual(packed.stdout, (EXAMPLES / "j4.job").read_bytes())
        unpacked = run("unpack", "-", data=packed.stdout)
        self.assertEqual(unpacked.stdout.decode(), bare(text.decode()))

    def test_files(self):
        with tempfile.TemporaryDirectory() as folder:
            made, back = pathlib.Path(folder, "j4.job"), pathlib.Path(folder, "j4.txt")
            self.assertEqual(run("pack", EXAMPLES / "j4.txt", "-o", made).returncode, 0)
            self.assertEqual(run("unpack", made, "-o", back).returncode, 0)
            self.assertEqual(back.read_text(), bare((EXAMPLES / "j4.txt").read_text()))

    def test_reply(self):
        result = run("reply", "--job", EXAMPLES / "j4.job", data=J4_REPLY)
        self.assertEqual((result.returncode, result.stdout.decode()), (0, J4_TEXT))

    def test_wrong_text_writes_nothing(self):
        with tempfile.TemporaryDirectory() as folder:
            made = pathlib.Path(folder, "x.job")
            result = run("pack", "-o", made, data="width resistance 4\nsíze\n".encode("latin-1"))
            self.assertEqual(result.returncode, 1)
            self.assertFalse(made.exists())
        lines = result.stderr.decode().split("\n")
        self.assertEqual(lines[0], "standard input:1: width lacks its capacitance")
        self.assertTrue(lines[1].startswith("standard input:2: unknown word 's\\udced"))

    def test_missing_file(self):
        result = run("unpack", "no such file")
        self.assertEqual((result.returncode, result.stdout), (1, b""))
        self.assertIn(b"no such file", result.stderr)


if __name__ == "__main__":
    unittest.main()
