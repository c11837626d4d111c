#!/usr/bin/env python3
"""Makes the vectors of crates/vectors whose names begin with `edge_`: bench texts, each with its report.

The reports come from a plain model of document 01 ("Stream rules" and "Bench text", with requests T-04 and T-09), which shares
nothing with the proved code or its definitions. The model is first held against every other vector in the folder, which were
made elsewhere. Writes data/edge_*.in, data/edge_*.out, args and stdout in crates/vectors. Takes no arguments.
"""

import pathlib
import random
import re

CRATE = pathlib.Path(__file__).resolve().parents[2] / "crates" / "vectors"
DATA = CRATE / "data"


# The model.

REFUSED = "kind=none\ncycles=0\nverdict=refused\nrule={}\nat=0\nhandshakes=0\nclears=0\n"
REPORT = "kind=stream\ncycles={}\nverdict={}\nrule={}\nat={}\nhandshakes={}\nclears={}\n"
HEADER = re.compile(rb"kind=stream\nseq=(on|off)\ncycles=(0|[1-9][0-9]{0,4})\n")
LINE = re.compile(rb"c=([0-9a-f]{2})([0-9a-f]{8})\n")


def carries(control):
    """A handshake with the strobes of bytes 0 and 1 both 1."""
    return control & 0x33 == 0x33


def breach(trace, counter, seq, c):
    """The first rule, in the order 4, 2, seq, that cycle c breaks, which is not clear.

    counter is the last one seen since a clear, or None.
    """
    control, data = trace[c]
    valid = control & 1
    if c > 0 and trace[c - 1][0] & 7 == 1:
        before, word = trace[c - 1]
        if not valid:
            return "4"
        if word != data or before >> 4 != control >> 4:
            return "2"
    if seq and carries(control) and counter is not None and data & 0xFFFF != (counter + 1) & 0xFFFF:
        return "seq"
    return None


def judged(trace, seq):
    handshakes, clears, counter = 0, 0, None
    for c, (control, data) in enumerate(trace):
        if control & 4:
            clears, counter = clears + 1, None
            continue
        rule = breach(trace, counter, seq, c)
        if rule is not None:
            return REPORT.format(len(trace), "broken", rule, c, handshakes, clears)
        if control & 3 == 3:
            handshakes += 1
        if carries(control):
            counter = data & 0xFFFF
    return REPORT.format(len(trace), "clean", 0, 0, handshakes, clears)


def report(text):
    """The report of a bench text, both as bytes."""
    header = HEADER.match(text)
    if header is None:
        return REFUSED.format(9).encode()
    cycles = int(header[2])
    if cycles > 4096:
        return REFUSED.format(3).encode()
    trace, at = [], header.end()
    for _ in range(cycles):
        line = LINE.match(text, at)
        if line is None:
            return REFUSED.format(9).encode()
        trace.append((int(line[1], 16), int(line[2], 16)))
        at = line.end()
    if at != len(text):
        return REFUSED.format(9).encode()
    if any(control & 8 for control, _ in trace):
        return REFUSED.format(2).encode()
    return judged(trace, header[1] == b"on").encode()


# The texts.


def text(trace, seq="off", cycles=None):
    """The text of a trace; another number of cycles may be announced."""
    announced = len(trace) if cycles is None else cycles
    lines = "".join("c={:02x}{:08x}\n".format(control, data) for control, data in trace)
    return "kind=stream\nseq={}\ncycles={}\n{}".format(seq, announced, lines).encode()


def handshakes(*counters):
    return [(0xF3, counter) for counter in counters]


def skipped(*words):
    """Handshakes that carry no counter, of the twelve strobes in turn."""
    strobes = [strb for strb in range(16) if strb % 4 != 3]
    return [(strobes[i % 12] << 4 | 3, word) for i, word in enumerate(words)]


def random_clean(cycles, rng, clears=0):
    """A clean trace with stalls, whose counters follow one another; three payloads in four carry none.

    One cycle in so many is clear, if any; its other bits are anything, and the counters go on anywhere after it.
    """
    trace, counter, stalled = [], 0xFF00, None
    while len(trace) < cycles:
        if clears and rng.randrange(clears) == 0:
            trace.append((rng.getrandbits(8) & 0xF7 | 4, rng.getrandbits(32)))
            counter, stalled = rng.getrandbits(16), None
            continue
        ready = rng.randrange(2)
        if stalled is None and rng.randrange(3) == 0:
            trace.append((rng.randrange(16) << 4 | ready << 1, rng.getrandbits(32)))
            continue
        if stalled is None:
            strb, data = rng.randrange(16), rng.getrandbits(32)
            stalled = (strb, data & 0xFFFF0000 | counter if strb % 4 == 3 else data)
        strb, data = stalled
        trace.append((strb << 4 | ready << 1 | 1, data))
        if ready:
            stalled = None
            counter = (counter + (strb % 4 == 3)) % 65536
    return trace


def headers():
    """Texts whose header is at an edge of the form."""
    line = b"c=0200000000\n"
    yield "empty", b""
    yield "byte_order_mark", b"\xef\xbb\xbf" + text([(0x02, 0)])
    yield "no_header", line
    yield "kind_mem", b"kind=mem\nseq=off\ncycles=1\n" + line
    yield "kind_upper", b"Kind=stream\nseq=off\ncycles=1\n" + line
    yield "kind_after_seq", b"seq=off\nkind=stream\ncycles=1\n" + line
    yield "kind_alone", b"kind=stream\n"
    yield "seq_missing", b"kind=stream\ncycles=1\n" + line
    for name, seq in [("upper", "ON"), ("one_f", "of"), ("three_f", "offf"), ("empty", "")]:
        yield "seq_" + name, text([(0x02, 0)], seq=seq)
    for name, cycles, count in [
        ("empty", "", 0),
        ("two_zeros", "00", 0),
        ("five_zeros", "00000", 0),
        ("leading_zero", "01", 1),
        ("leading_zeros_to_five_digits", "00001", 1),
        ("leading_zero_to_six_digits", "000001", 1),
        ("leading_zero_before_4096", "04096", 1),
        ("six_digits", "100000", 1),
        ("six_nines", "999999", 1),
        ("plus", "+1", 1),
        ("minus", "-0", 0),
        ("hex", "0x1", 1),
        ("point", "1.0", 1),
        ("space_after", "1 ", 1),
        ("tab_before", "\t1", 1),
        ("return_after", "1\r", 1),
        ("five_digits_and_a_letter", "99999x", 1),
    ]:
        yield "cycles_" + name, text([(0x02, 0)] * count, cycles=cycles)
    for cycles in [4097, 9999, 10000, 65535, 65536, 65537, 99999]:
        yield "cycles_{}".format(cycles), text([(0x02, 0)], cycles=cycles)
    yield "cycles_0_no_line_feed", b"kind=stream\nseq=off\ncycles=0"
    yield "cycles_4097_no_line_feed", b"kind=stream\nseq=off\ncycles=4097"
    yield "cycles_0_seq_on", text([], seq="on")
    yield "cycles_0_nul", text([]) + b"\0"


def lines():
    """Texts whose cycle lines are at an edge of the form."""
    head = b"kind=stream\nseq=off\ncycles=1\n"
    for name, line in [
        ("crlf", b"c=0200000000\r\n"),
        ("return_only", b"c=0200000000\r"),
        ("tab", b"c=\t200000000\n"),
        ("nul", b"c=02\x0000000000\n"),
        ("upper_key", b"C=0200000000\n"),
        ("upper_last_digit", b"c=020000000A\n"),
        ("slash", b"c=02/0000000\n"),
        ("at_sign", b"c=02@0000000\n"),
        ("letter_g", b"c=g200000000\n"),
        ("nine_digits", b"c=020000000\n"),
        ("leading_space", b" c=0200000000\n"),
        ("high_bit", b"c=02000000\xb00\n"),
    ]:
        yield "line_" + name, head + line
    trace = [(0x02, 0), (0x02, 1), (0x02, 2)]
    yield "line_missing", text(trace, cycles=4)
    yield "line_surplus", text(trace, cycles=2)
    yield "surplus_line_feed", text(trace) + b"\n"
    yield "surplus_nul", text(trace) + b"\0"
    yield "bad_line_past_breach", text([(0xF1, 1), (0xF0, 1), (0x02, 0)])[:-2] + b"\n"


def verdicts():
    """Short traces for single rules and their order."""
    yield "whole_case", text([(0x02, 0), (0xF1, 0x11), (0xF3, 0x11), (0xF1, 0x12), (0xF3, 0x13)])
    yield "p3", text([(0xF1, 0x11), (0xF0, 0x12)])
    yield "p5", text(handshakes(7, 7), seq="on")
    yield "rule_4_as_ready_rises", text([(0xF1, 5), (0xF2, 5), (0xF3, 5)])
    yield "rule_4_before_later_rule_2", text([(0xF1, 5), (0xF0, 5), (0xF1, 6), (0xF3, 7)])
    yield "rule_2_before_seq", text([(0xF3, 5), (0xF1, 6), (0xF3, 8)], seq="on")
    yield "rule_2_before_later_rule_4", text([(0xF1, 6), (0xF1, 8), (0xF0, 8)])
    yield "rule_2_strb_alone", text([(0xF1, 5), (0x73, 5)])
    yield "rule_2_byte_not_strobed", text([(0x11, 5), (0x13, 0x80000005)])
    yield "rule_2_low_bit", text([(0xF1, 4), (0xF3, 5)])
    yield "change_under_valid_0", text([(0xF0, 1), (0x02, 2), (0x70, 3), (0xF3, 4)])
    yield "change_after_handshake", text([(0xF3, 1), (0x31, 9), (0x33, 9), (0x00, 2)])
    yield "long_stall", text([(0xF1, 5)] * 40 + [(0xF3, 5)])
    yield "seq_wrap", text(handshakes(0xFFFE, 0xFFFF, 0, 1), seq="on")
    yield "seq_wrap_with_high_bits", text(handshakes(0xFFFFFFFF, 0, 0xABCD0001), seq="on")
    yield "seq_wraps_at_65536_alone", text(handshakes(0x7FFF, 0), seq="on")
    yield "seq_back", text(handshakes(5, 4), seq="on")
    yield "seq_skip", text(handshakes(5, 6, 8, 9), seq="on")
    yield "seq_first_is_free", text([(0x02, 0), (0xF0, 9)] + handshakes(0x8000, 0x8001), seq="on")
    yield "seq_not_under_valid_0", text([(0xF3, 5), (0xF2, 9), (0xF0, 9), (0xF3, 6)], seq="on")
    yield "seq_when_a_stall_ends", text([(0xF3, 5), (0xF1, 9), (0xF1, 9), (0xF3, 9)], seq="on")
    yield "seq_skipped_unread", text(handshakes(5) + skipped(*range(12)) + handshakes(6), seq="on")
    yield "seq_first_after_skipped", text(skipped(5, 5, 9) + handshakes(0x8000, 0x8001), seq="on")
    yield "seq_wrap_over_skipped", text(handshakes(0xFFFF) + skipped(1, 0, 7) + handshakes(0, 1), seq="on")
    yield "seq_back_over_skipped", text(handshakes(5, 6) + skipped(7) + handshakes(6), seq="on")
    yield "seq_none_but_skipped", text(skipped(*[7] * 24), seq="on")
    yield "seq_under_strb_3_7_11", text([(0x33, 5), (0x73, 6), (0xB3, 7), (0x33, 9)], seq="on")
    yield "seq_last_word_counts", text(handshakes(5) + [(0x73, 5)], seq="on")
    yield "rule_4_null_bytes", text([(0xF3, 5), (0xC1, 9), (0xC2, 9)], seq="on")
    yield "every_control_without_stall", text([(control, 7) for control in range(256) if control & 8 == 0 and control & 7 != 1])
    yield "reserved_both_bits", text([(0xFF, 0)])
    yield "reserved_past_breach", text([(0xF1, 1), (0xF0, 1), (0x02, 0), (0x08, 0)])
    yield "reserved_before_too_few_lines", text([(0x08, 0)], cycles=2)


def clears():
    """Short traces with clear cycles."""
    clear = (0x04, 0)
    yield "clear_between_stall_and_valid_0", text([(0xF1, 5), (0xF5, 5), (0xF2, 5)])
    yield "clear_between_stall_and_payload", text([(0xF1, 5), (0xF7, 5), (0x73, 6)])
    yield "clear_before_a_stall", text([clear, (0xF1, 5), clear, (0xF1, 6), (0xF0, 6)])
    yield "clear_shows_a_stall", text([(0xF5, 5), (0xF3, 6)])
    yield "clear_shows_a_handshake", text(handshakes(5) + [(0xF7, 6)] + handshakes(7, 8), seq="on")
    yield "clear_shows_a_counter", text([(0xF7, 5)] + handshakes(9) + [(0xF7, 10)] + handshakes(10), seq="on")
    yield "clear_between_counters", text(handshakes(5) + skipped(1) + [clear] + skipped(2) + handshakes(5, 6), seq="on")
    yield "clear_before_counter_due", text(handshakes(5) + [clear] + handshakes(9, 6), seq="on")
    yield "clear_bit_3_past_breach", text([(0xF1, 1), (0xF0, 1), (0x0C, 0)])
    yield "clears_around_breach", text([clear] + handshakes(5) + [clear] + handshakes(9, 11) + [clear] * 3, seq="on")
    yield "clears_of_every_byte", text([(control, 7) for control in range(256) if control & 12 == 4], seq="on")


def longest():
    """Texts about as long as the form allows."""
    rng = random.Random(4096)
    always = [(0xF3, counter) for counter in range(4096)]
    stalls = random_clean(4096, rng)
    yield "full_always", text(always, seq="on")
    yield "full_random", text(stalls, seq="on")
    yield "full_skipped_between", text(handshakes(0xFFFF) + skipped(*range(4094)) + handshakes(0), seq="on")
    yield "full_seq_over_skipped", text(handshakes(7) + skipped(*range(4094)) + handshakes(7), seq="on")
    yield "full_rule_2_last", text(always[:4094] + [(0xF1, 5), (0xF3, 6)])
    yield "full_rule_4_last", text(always[:4094] + [(0x11, 5), (0x12, 5)])
    yield "full_seq_last", text(always[:4095] + always[:1], seq="on")
    yield "full_longest_report", text([(0xF7, 9)] * 1000 + always[:3095] + always[:1], seq="on")
    yield "full_random_with_clears", text(random_clean(4096, rng, clears=16), seq="on")
    yield "full_reserved_last", text(always[:4095] + [(0x08, 0)])
    yield "full_no_last_line_feed", text(always)[:-1]
    yield "full_surplus_byte", text(always) + b"c"
    yield "full_surplus_4097_lines", text(always + [(0x02, 0)], cycles=4096)
    yield "full_4097_lines", text(always + [(0x02, 0)])
    yield "full_much_surplus", text(always) + b"\n" * 20000


def main():
    for given in sorted(DATA.glob("*.in")):
        if not given.name.startswith("edge_") and report(given.read_bytes()) != given.with_suffix(".out").read_bytes():
            raise SystemExit("the model disagrees with " + given.name)
    for old in DATA.glob("edge_*"):
        old.unlink()
    for group in [headers, lines, verdicts, clears, longest]:
        for name, made in group():
            (DATA / "edge_{}.in".format(name)).write_bytes(made)
            (DATA / "edge_{}.out".format(name)).write_bytes(report(made))
    names = sorted(path.name for path in DATA.glob("*.in"))
    (CRATE / "args").write_text("".join(name + "\n" for name in names))
    (CRATE / "stdout").write_text("{} vectors, 0 differ\n".format(len(names)))


if __name__ == "__main__":
    main()
