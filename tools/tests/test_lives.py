"""FDT Instances of several packets, and files of many symbols: how `mbms_rx` puts them together and when they end."""

import hashlib
import random
import struct
import unittest

from support.programs import DONE, INCOMPLETE, ProgramTest, fdt_line, receive_words
from support.traces import (
    MOMENT,
    fdt_extension,
    file_element,
    fti_extension,
    header,
    instance,
    instance_packets,
    record,
    session,
    symbol,
    symbols,
    text,
)

ABCDE = file_element(5, 5, "a.bin", symbol_length=1)
EXPIRES = 3_900_000_000
MD5_OF_NOTHING = hashlib.md5(b"").digest()
MD5_OF_HELLO = hashlib.md5(b"hello").digest()


def end(datagrams, moment=MOMENT, cause="ended"):
    return f"end {cause} {moment} datagrams {datagrams}\n"


def at(moment, *datagrams):
    return b"".join(record(moment, datagram) for datagram in datagrams)


class LivesTest(ProgramTest):
    def received(self, trace, status, lines, files):
        self.is_ended(self.called(receive_words(), trace), status, lines)
        self.has_files(files)


class Instances(LivesTest):
    def test_packets_in_any_order_with_repeats(self):
        packets = instance_packets(text(ABCDE), 20)
        for seed in range(20):
            with self.subTest(seed):
                chance = random.Random(seed)
                # The last packet comes once: behind it the instance is read.
                *others, last = chance.sample(packets, len(packets))
                heard = chance.sample(others + others, 2 * len(others)) + [last]
                trace = session(*heard, *symbols(5, b"abcde", 1, 64))
                lines = fdt_line(1) + "stored 5 5 a.bin\n" + end(len(heard) + 5)
                self.received(trace, DONE, lines, {5: b"abcde"})

    def test_packets_without_ext_fti_behind_the_first(self):
        first, *others = instance_packets(text(ABCDE), 20)
        bare = [header(0, fdt_extension(1)) + packet[36:] for packet in others]
        self.received(session(first, *bare), INCOMPLETE, fdt_line(1) + end(1 + len(bare)) + "incomplete 5 5\n", {})
        late = end(1 + len(bare)) + "dropped fdtwithoutids 1\n"
        self.received(session(bare[0], first, *bare[1:]), DONE, late, {})

    def test_two_instances_interleaved(self):
        first = instance_packets(text(ABCDE), 20, 1)
        second = instance_packets(text(file_element(6, 5, "b.bin")), 20, 2)
        mixed = [packet for both in zip(first, second) for packet in both] + second[len(first) :] + first[len(second) :]
        trace = session(*mixed, symbol(6, b"hello"))
        lines = [fdt_line(1, 1), fdt_line(1, 2)]
        lines = "".join(lines if len(first) <= len(second) else reversed(lines))
        ending = "stored 6 5 b.bin\n" + end(len(mixed) + 1) + "incomplete 5 5\n"
        self.received(trace, INCOMPLETE, lines + ending, {6: b"hello"})

    def test_of_seventeen_that_have_begun_the_first_is_given_up(self):
        for count, read in ((16, True), (17, False)):
            with self.subTest(count):
                begun = [instance_packets(text(ABCDE), 100, number) for number in range(1, count + 1)]
                firsts, rest = [packets[0] for packets in begun], begun[0][1:]
                lines = fdt_line(1) if read else ""
                missing = "incomplete 5 5\n" if read else ""
                trace = session(*firsts, *rest)
                self.received(trace, INCOMPLETE if read else DONE, lines + end(count + len(rest)) + missing, {})

    def test_a_refused_text_in_one_packet_needs_a_slot_too(self):
        """As the seventeenth it has the first one given up, and then has no slot itself."""
        refused = text(ABCDE)[:-1] + b"<"
        for count, read in ((15, True), (16, False)):
            with self.subTest(count):
                begun = [instance_packets(text(ABCDE), 100, number) for number in range(1, count + 1)]
                firsts, rest = [packets[0] for packets in begun], begun[0][1:]
                trace = session(*firsts, instance(refused, 99), *rest)
                lines = f"fdt 99 fault 2 at {len(refused) - 1}\n" + (fdt_line(1) if read else "")
                lines += end(count + 1 + len(rest)) + ("incomplete 5 5\n" if read else "")
                self.received(trace, INCOMPLETE if read else DONE, lines, {})

    def test_a_refused_text_is_put_together_anew(self):
        """Its slot is given up, so another text under the same ID is not mixed with it."""
        good = text(ABCDE)
        bad = good[:-1] + b"<"
        trace = session(*instance_packets(bad, 50), *instance_packets(good, 50))
        count = 2 * len(instance_packets(good, 50))
        lines = f"fdt 1 fault 2 at {len(bad) - 1}\n" + fdt_line(1) + end(count) + "incomplete 5 5\n"
        self.received(trace, INCOMPLETE, lines, {})

    def test_an_instance_that_was_read_is_not_read_again_before_it_expires(self):
        packet = instance(text(ABCDE, expires=MOMENT + 5))
        trace = at(MOMENT, packet, packet) + at(MOMENT + 5, packet)
        lines = fdt_line(1) + end(3, MOMENT + 5) + "dropped done 2\nincomplete 5 5\n"
        self.received(trace, INCOMPLETE, lines, {})
        lines = fdt_line(1) + "fdt 1 late\n" + end(4, MOMENT + 6) + "expired 1\ndropped done 2\n"
        self.received(trace + at(MOMENT + 6, packet), DONE, lines, {})

    def test_a_text_that_is_whole_after_its_expires_describes_nothing(self):
        first, last = instance_packets(text(ABCDE, expires=MOMENT), 150)
        self.received(at(MOMENT, first, last), INCOMPLETE, fdt_line(1) + end(2) + "incomplete 5 5\n", {})
        lines = "fdt 1 late\n" + end(2, MOMENT + 1)
        self.received(at(MOMENT, first) + at(MOMENT + 1, last), DONE, lines, {})

    def test_what_the_entries_of_a_later_instance_do(self):
        other, raptor = file_element(5, 6, "a.bin"), file_element(8, 16, "r", 4).replace('ID="0"', 'ID="1"')
        raptor = raptor.replace("/>", ' FEC-OTI-Scheme-Specific-Info="AAEBBA=="/>')
        later = text(ABCDE, other, file_element(6, 1, "new"), raptor, file_element(7, 2**28 + 1, "long"))
        trace = session(instance(text(ABCDE)), instance(later, 2))
        lines = fdt_line(1) + fdt_line(1, 2, prolonged=1, conflicting=1, refused=1, norow=1)
        self.received(trace, INCOMPLETE, lines + end(2) + "incomplete 5 5\nincomplete 6 1\n", {})


class Files(LivesTest):
    def test_blocks_and_symbols_in_any_order_with_repeats(self):
        data = bytes(range(38))
        packets = symbols(5, data, 4, 4)
        # Ten symbols with four a block at most lie in blocks of four, three and three.
        self.assertEqual([packet[16:20] for packet in packets[3:5]], [bytes((0, 0, 0, 3)), bytes((0, 1, 0, 0))])
        described = instance(text(file_element(5, 38, "a.bin", 4, 4)))
        for seed in range(20):
            with self.subTest(seed):
                chance = random.Random(seed)
                *others, last = chance.sample(packets, len(packets))
                heard = chance.sample(others + others, 2 * len(others)) + [last]
                lines = fdt_line(1) + "stored 5 38 a.bin\n" + end(1 + len(heard))
                self.received(session(described, *heard), DONE, lines, {5: data})

    def test_several_symbols_in_a_packet(self):
        heard = [symbol(5, b"a"), symbol(5, b"c", 0, 2), symbol(5, b"b", 0, 1), symbol(5, b"de", 0, 3)]
        lines = fdt_line(1) + "stored 5 5 a.bin\n" + end(5)
        self.received(session(instance(text(ABCDE)), *heard), DONE, lines, {5: b"abcde"})

    def test_symbols_that_do_not_come_are_counted(self):
        trace = session(instance(text(ABCDE)), symbol(5, b"a"), symbol(5, b"c", 0, 2))
        self.received(trace, INCOMPLETE, fdt_line(1) + end(3) + "incomplete 5 3\n", {})

    def test_the_last_symbol_may_lack_its_padding_or_a_part_of_it(self):
        described = instance(text(file_element(5, 5, "a.bin", 4)))
        for last in (b"o", b"o?", b"o??", b"o???"):
            with self.subTest(last):
                trace = session(described, symbol(5, last, 0, 1), symbol(5, b"hell"))
                self.received(trace, DONE, fdt_line(1) + "stored 5 5 a.bin\n" + end(3), {5: b"hello"})

    def test_the_first_symbol_of_a_place_counts(self):
        trace = session(instance(text(ABCDE)), symbol(5, b"abcd"), symbol(5, b"ABCDE"))
        self.received(trace, DONE, fdt_line(1) + "stored 5 5 a.bin\n" + end(3), {5: b"abcdE"})

    def test_a_file_is_stored_once(self):
        trace = session(instance(text(ABCDE)), symbol(5, b"abcde"), symbol(5, b"ABCDE"), instance(text(ABCDE), 2))
        lines = fdt_line(1) + "stored 5 5 a.bin\n" + fdt_line(0, 2, prolonged=1) + end(4) + "dropped done 1\n"
        self.received(trace, DONE, lines, {5: b"abcde"})

    def test_a_large_file_is_stored_in_one_piece(self):
        data = random.Random(1).randbytes(9_000_001)
        packets = random.Random(2).sample(symbols(5, data, 1_400, 1_000), 6_429)
        trace = session(instance(text(file_element(5, len(data), "a.bin", 1_400, 1_000))), *packets)
        self.received(trace, DONE, fdt_line(1) + f"stored 5 {len(data)} a.bin\n" + end(6_430), {5: data})


class Digests(LivesTest):
    def test_a_file_with_its_digest_or_another(self):
        described = instance(text(file_element(5, 5, "a.bin", 2, md5=MD5_OF_HELLO)))
        packets = [described, symbol(5, b"he"), symbol(5, b"o", 0, 2)]
        wrong = f"damaged 5 {MD5_OF_HELLO.hex()} {hashlib.md5(b'heLlo').hexdigest()}\n"
        lines = fdt_line(1) + wrong + end(4) + "incomplete 5 3\n"
        self.received(session(*packets, symbol(5, b"Ll", 0, 1)), INCOMPLETE, lines, {})
        lines = fdt_line(1) + "stored 5 5 a.bin\n" + end(4)
        self.received(session(*packets, symbol(5, b"ll", 0, 1)), DONE, lines, {5: b"hello"})

    def test_a_damaged_file_is_emptied_and_heard_anew(self):
        element = file_element(5, 5, "a.bin", 1, md5=MD5_OF_HELLO)
        trace = session(instance(text(element)), symbol(5, b"hellx"), symbol(5, b"hell"), symbol(5, b"o", 0, 4))
        wrong = f"damaged 5 {MD5_OF_HELLO.hex()} {hashlib.md5(b'hellx').hexdigest()}\n"
        self.received(trace, DONE, fdt_line(1) + wrong + "stored 5 5 a.bin\n" + end(4), {5: b"hello"})

    def test_empty_files(self):
        digests = {1: None, 2: MD5_OF_NOTHING, 3: MD5_OF_HELLO}
        elements = [file_element(toi, 0, "e", md5=md5) for toi, md5 in digests.items()]
        lines = fdt_line(3) + "stored 1 0 e\nstored 2 0 e\n" + end(1) + "incomplete 3 0\n"
        self.received(session(instance(text(*elements))), INCOMPLETE, lines, {1: b"", 2: b""})


class Expiries(LivesTest):
    def test_at_its_last_moment_a_file_is_received(self):
        described = at(MOMENT, instance(text(ABCDE)))
        lines = fdt_line(1) + "stored 5 5 a.bin\n" + end(2, EXPIRES)
        self.received(described + at(EXPIRES, symbol(5, b"abcde")), DONE, lines, {5: b"abcde"})

    def test_behind_it_the_life_has_ended(self):
        trace = at(MOMENT, instance(text(ABCDE)), symbol(5, b"abcd")) + at(EXPIRES + 1, symbol(5, b"e", 0, 4))
        lines = fdt_line(1) + end(3, EXPIRES + 1) + "expired 1\ndropped unknown 1\n"
        self.received(trace, DONE, lines, {})

    def test_a_datagram_that_is_no_packet_ends_it_too(self):
        lines = fdt_line(1) + end(2, EXPIRES + 1) + "expired 1\ndropped short 1\n"
        self.received(at(MOMENT, instance(text(ABCDE))) + at(EXPIRES + 1, b""), DONE, lines, {})

    def test_a_life_that_was_prolonged_goes_on(self):
        later = instance(text(ABCDE, expires=EXPIRES + 9), 2)
        trace = at(MOMENT, instance(text(ABCDE)), symbol(5, b"abcd"), later) + at(EXPIRES + 9, symbol(5, b"e", 0, 4))
        lines = fdt_line(1) + fdt_line(0, 2, prolonged=1) + "stored 5 5 a.bin\n" + end(4, EXPIRES + 9)
        self.received(trace, DONE, lines, {5: b"abcde"})

    def test_a_new_life_begins_with_nothing(self):
        later = instance(text(ABCDE, expires=EXPIRES + 9), 2)
        trace = at(MOMENT, instance(text(ABCDE)), symbol(5, b"abcd")) + at(EXPIRES + 1, later, symbol(5, b"e", 0, 4))
        lines = fdt_line(1) + fdt_line(1, 2) + end(4, EXPIRES + 1) + "expired 1\nincomplete 5 4\n"
        self.received(trace, INCOMPLETE, lines, {})

    def test_after_its_end_a_stored_file_may_be_described_and_stored_again(self):
        later = instance(text(ABCDE, expires=EXPIRES + 9), 2)
        trace = at(MOMENT, instance(text(ABCDE)), symbol(5, b"abcde")) + at(EXPIRES + 1, later, symbol(5, b"ABCDE"))
        stored = "stored 5 5 a.bin\n"
        lines = fdt_line(1) + stored + fdt_line(1, 2) + stored + end(4, EXPIRES + 1)
        self.received(trace, DONE, lines, {5: b"ABCDE"})

    def test_a_clock_that_goes_back_ends_nothing(self):
        trace = at(MOMENT, instance(text(ABCDE))) + at(0, symbol(5, b"abcde"))
        self.received(trace, DONE, fdt_line(1) + "stored 5 5 a.bin\n" + end(2), {5: b"abcde"})


def small_files(attributes, expires):
    """A text that describes files in symbols of one byte, each with these further attributes."""
    oti = {"FEC-Encoding-ID": 0, "Maximum-Source-Block-Length": 2, "Encoding-Symbol-Length": 1}
    shared = "".join(f' FEC-OTI-{name}="{value}"' for name, value in oti.items())
    elements = "".join(f'<File Content-Location="f" TOI="{toi}"{more}/>' for toi, more in attributes.items())
    return f'<FDT-Instance Expires="{expires}"{shared}>{elements}</FDT-Instance>'.encode()


class ManyLives(LivesTest):
    def test_a_table_full_of_lives(self):
        """1,024 files: every fourth is empty, has a wrong digest, or expires while it is half heard."""
        parts = {kind: ' Content-Length="3"' for kind in range(4)}
        parts[1] = ' Content-Length="0"'
        parts[2] += ' Content-MD5="1B2M2Y8AsgTpgAmY7PhCfg=="'

        def described(kinds, expires, number):
            tois = [toi for toi in range(1, 1025) if toi % 4 in kinds]
            return instance_packets(small_files({toi: parts[toi % 4] for toi in tois}, expires), 1_400, number)

        standing, ending = described((0, 1, 2), EXPIRES, 1), described((3,), MOMENT, 2)
        chance = random.Random(4)
        whole = [(toi, packet) for toi in range(1, 1025) if toi % 4 in (0, 2) for packet in symbols(toi, b"abc", 1, 2)]
        half = [symbol(toi, b"ab") for toi in range(3, 1025, 4)]
        chance.shuffle(whole)
        trace = session(*standing, *ending, *half) + at(MOMENT + 1, *(packet for _, packet in whole))
        found = hashlib.md5(b"abc").hexdigest()
        heard, lines = dict.fromkeys(range(1, 1025), 0), fdt_line(768)
        lines += "".join(f"stored {toi} 0 f\n" for toi in range(1, 1025, 4)) + fdt_line(256, 2)
        for toi, _ in whole:
            heard[toi] += 1
            if heard[toi] == 3:
                lines += f"stored {toi} 3 f\n" if toi % 4 == 0 else f"damaged {toi} {MD5_OF_NOTHING.hex()} {found}\n"
        datagrams = len(standing) + len(ending) + len(half) + len(whole)
        lines += end(datagrams, MOMENT + 1) + "expired 256\n"
        lines += "".join(f"incomplete {toi} 3\n" for toi in range(2, 1025, 4))
        files = {toi: b"" if toi % 4 else b"abc" for toi in range(1, 1025) if toi % 4 < 2}
        self.received(trace, INCOMPLETE, lines, files)

    def test_no_more_lives_than_1024(self):
        whole = small_files({toi: ' Content-Length="1"' for toi in range(1, 1025)}, EXPIRES)
        trace = session(instance(whole), symbol(7, b"x"), instance(text(file_element(2000, 1, "g")), 2))
        incomplete = "".join(f"incomplete {toi} 1\n" for toi in range(1, 1025) if toi != 7)
        lines = fdt_line(1024) + "stored 7 1 f\n" + fdt_line(0, 2, full=1) + end(3) + incomplete
        self.received(trace, INCOMPLETE, lines, {7: b"x"})

    def test_no_more_bytes_of_symbols_or_equations_than_2_30(self):
        largest = [file_element(toi, 2**28, "f", 4096, 64) for toi in range(1, 6)]
        # A block of one symbol counts 264 bytes, and each of these files has 65,536 blocks.
        blocks = [file_element(toi, 65_536, "f", 1, 1) for toi in range(1, 64)]
        for elements, started, missing in ((largest, 4, 65_536), (blocks, 62, 65_536)):
            with self.subTest(started):
                lines = fdt_line(started, full=1) + end(1)
                lines += "".join(f"incomplete {toi} {missing}\n" for toi in range(1, started + 1))
                self.received(session(instance(text(*elements))), INCOMPLETE, lines, {})


class Reasons(LivesTest):
    """Each packet is dropped for one reason, and also has what later reasons look for, as far as one packet can."""

    DESCRIBED = instance(text(ABCDE, file_element(6, 5, "b.bin", 4)))

    def is_dropped(self, packet, reason):
        with self.subTest(reason):
            trace = session(self.DESCRIBED, symbol(5, b"abcde"), packet)
            lines = fdt_line(2) + "stored 5 5 a.bin\n" + end(3) + f"dropped {reason} 1\nincomplete 6 2\n"
            self.received(trace, INCOMPLETE, lines, {5: b"abcde"})

    def test_each_reason_in_its_order(self):
        fdt, other = fdt_extension(1), fdt_extension(2)
        own = fti_extension(len(text(ABCDE, file_element(6, 5, "b.bin", 4))), 65_535, 64)
        shapeless, encoded = fti_extension(0, 0, 0), b"\xc1\1\0\0"
        elsewhere = bytes.fromhex("10a00400 00000000 00000002 00000005 00000000")
        without_toi = bytes.fromhex("10800300 00000000 00000001 00000000")
        for packet, reason in (
            (elsewhere, "othersession"),
            (elsewhere[:-4], "othersession"),
            (without_toi, "notoi"),
            (without_toi[:-4], "notoi"),
            (header(9, cp=1), "nobody"),
            # TOI 0.
            (symbol(0, b"", 9, 9, shapeless + encoded, cp=1), "fdtwithoutids"),
            (symbol(0, b"", 9, 9, other + encoded, cp=1), "fdtwithoutids"),
            (symbol(0, b"", 9, 9, fdt + shapeless + encoded, cp=1), "fdtencoded"),
            (symbol(0, b"", 9, 9, fdt + shapeless, cp=1), "codepointdiffers"),
            (symbol(0, b"", 9, 9, fdt + shapeless), "fdtshape"),
            (symbol(0, b"", 9, 9, fdt + fti_extension(9, 9, 9)), "ftidiffers"),
            (symbol(0, b"", 9, 9, fdt + own), "block"),
            (symbol(0, b"", 0, 9, fdt + own), "symbol"),
            (symbol(0, b"", 0, 0, fdt + own), "length"),
            (symbol(0, text(ABCDE, file_element(6, 5, "b.bin", 4)), 0, 0, fdt + own), "done"),
            # Files.
            (symbol(9, b"", 9, 9, shapeless, cp=1), "unknown"),
            (symbol(5, b"", 9, 9, shapeless, cp=1), "ftidiffers"),
            (symbol(5, b"", 9, 9, fti_extension(5, 1, 64), cp=1), "codepointdiffers"),
            (symbol(5, b"", 9, 9), "block"),
            (symbol(5, b"", 0, 5), "symbol"),
            (symbol(5, b"ab", 0, 4), "symbol"),
            (symbol(5, b"", 0, 4), "length"),
            (symbol(6, b"hel"), "length"),
            (symbol(5, b"e", 0, 4), "done"),
        ):
            self.is_dropped(packet, reason)

    def test_of_two_reasons_the_first_is_printed_first(self):
        trace = session(self.DESCRIBED, symbol(9, b"x"), header(5), bytes.fromhex("10800300 00000000 00000001"))
        counts = "dropped notoi 1\ndropped nobody 1\ndropped unknown 1\n"
        self.received(trace, INCOMPLETE, fdt_line(2) + end(4) + counts + "incomplete 5 5\nincomplete 6 2\n", {})

    def test_a_packet_that_is_dropped_may_close_the_session(self):
        closing = struct.pack(">BBBBLLL", 0x10, 0xA2, 4, 0, 0, 1, 9) + bytes(5)
        lines = fdt_line(2) + end(2, cause="closed") + "dropped unknown 1\nincomplete 5 5\nincomplete 6 2\n"
        self.received(session(self.DESCRIBED, closing, symbol(5, b"abcde")), INCOMPLETE, lines, {})


if __name__ == "__main__":
    unittest.main()
