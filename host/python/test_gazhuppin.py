"""The module against document 01: `python3 -m unittest`, in this folder, once the shared object is built."""

import doctest
import pathlib
import unittest

import gazhuppin
from gazhuppin import Machine, Refusal, Refused, Rights, address

EXAMPLES = pathlib.Path(__file__).resolve().parents[2] / "examples"


class Calls(unittest.TestCase):
    def refused(self, refusal, call, *arguments, **named):
        with self.assertRaises(Refused) as raised:
            call(*arguments, **named)
        self.assertEqual(raised.exception.refusal, refusal)

    def test_the_documents_roll(self):
        machine = Machine()
        machine.open(0, 8)
        self.assertEqual(machine.map(0, 2), 0)
        machine.write(0, 5, 7)
        self.assertEqual(machine.snapshot(0), 2)
        machine.write(0, 5, 9)
        machine.write(0, 300, 4)
        self.assertEqual(machine.report(0), 3)
        self.assertEqual(machine.rewind(0), 2)
        self.assertEqual((machine.read(0, 5), machine.read(0, 300), machine.report(0)), (7, 0, 3))
        self.refused(Refusal.SNAPSHOT_TAKEN, machine.snapshot, 0)

    def test_each_call_refused(self):
        machine = Machine(image=bytes(range(256)), frames=16)
        self.refused(Refusal.NO_SUCH_CALL, machine.answer, 11, 0)
        self.refused(Refusal.NOT_OPEN, machine.report, 0)
        machine.open(0, 12)
        self.refused(Refusal.ALREADY_OPEN, machine.open, 0, 8)
        self.refused(Refusal.OUTSIDE_LIMITS, machine.map, 0, 1, at=64)
        self.refused(Refusal.OUTSIDE_LIMITS, machine.map, 0, 2, image_page=0)
        self.refused(Refusal.NO_SNAPSHOT, machine.rewind, 0)
        self.refused(Refusal.NO_SNAPSHOT, machine.compare, 0)
        self.refused(Refusal.NOT_MAPPED, machine.read, 0, 0)
        self.assertEqual(machine.map(0, 1, at=2, image_page=0, rights=Rights.READ), 2)
        self.assertEqual(machine.read(0, address(2, 200)), 200)
        self.refused(Refusal.ALREADY_MAPPED, machine.map, 0, 3, at=0)
        self.refused(Refusal.NO_GAP, machine.map, 0, 64)
        self.refused(Refusal.NOT_WRITABLE, machine.write, 0, address(2, 0), 1)
        self.refused(Refusal.SHARE_EXCEEDED, machine.map, 0, 12)
        for page in range(4, 18, 2):
            machine.map(0, 1, at=page)
        self.refused(Refusal.TOO_MANY_AREAS, machine.map, 0, 1, at=18)
        machine.protect(0, 2, 1, Rights.READ_WRITE)
        machine.write(0, address(2, 0), 1)
        machine.unmap(0, 2)
        self.refused(Refusal.NOT_MAPPED, machine.protect, 0, 2, 1, Rights.READ)
        self.refused(Refusal.NOT_MAPPED, machine.write, 0, address(2, 0), 1)

    def test_unmap_passes_over_gaps(self):
        machine = Machine(frames=16)
        machine.open(0, 16)
        for page in (2, 5, 9):
            machine.map(0, 2, at=page)
            machine.write(0, address(page, 0), page)
        machine.snapshot(0)
        memory = (machine.state, machine.pool, machine.table)
        for first, pages in ((0, 2), (4, 1), (7, 2), (11, 53)):
            self.assertEqual(machine.answer(3, 0, first, pages), 0)
            self.assertEqual((machine.state, machine.pool, machine.table), memory)
            self.refused(Refusal.NOT_MAPPED, machine.protect, 0, first, pages, Rights.READ)
        machine.unmap(0, 3, 7)
        for page in (3, 4, 5, 6, 9):
            self.refused(Refusal.NOT_MAPPED, machine.read, 0, address(page, 0))
        self.assertEqual((machine.read(0, address(2, 0)), machine.read(0, address(10, 0))), (2, 0))
        machine.unmap(0, 0, 64)
        self.assertEqual(machine.report(0), 3)
        machine.unmap(0, 0, 64)
        self.assertEqual(machine.rewind(0), 0)
        self.assertEqual((machine.state, machine.pool, machine.table), memory)

    def test_frames_of_a_finished_request_are_kept(self):
        machine = Machine(image=bytes([7]) * 256, frames=16)
        machine.open(0, 8)
        machine.snapshot(0)
        for request in (1, 2, 3):
            self.assertEqual(machine.map(0, 3), 0)
            for page in range(3):
                self.assertEqual((machine.read(0, address(page, 0)), machine.read(0, address(page, 255))), (0, 0))
                machine.write(0, address(page, 0), request)
                machine.write(0, address(page, 255), request)
            self.assertEqual(machine.report(0), 3)
            self.assertEqual(machine.rewind(0), 0)
            self.assertEqual((machine.report(0), machine.pool, machine.table), (3, bytes(16 * 256), (0,) * 512))
            self.assertIsNone(machine.compare(0))
        machine.map(0, 7, at=8)
        machine.map(0, 1, image_page=0)
        self.assertEqual((machine.report(0), machine.table), (3, (0,) * 512))
        held = []
        for page in range(8, 15):
            machine.write(0, address(page, 1), 1)
            held.append(machine.report(0))
        self.assertEqual(held, [4, 5, 6, 7, 8, 8, 8])
        machine.unmap(0, 0, 64)
        self.assertEqual(machine.report(0), 1)

    def test_still_clean(self):
        machine = Machine(frames=8)
        machine.open(0, 8)
        machine.map(0, 2, at=0)
        machine.snapshot(0)
        self.assertIsNone(machine.compare(0))
        machine.write(0, address(1, 255), 1)
        self.assertEqual(machine.compare(0), 1)
        machine.protect(0, 0, 1, Rights.READ)
        before = (machine.state, machine.pool, machine.table)
        self.assertEqual(machine.compare(0), 0)
        self.assertEqual((machine.state, machine.pool, machine.table), before)
        machine.write(0, address(1, 255), 0)
        machine.protect(0, 0, 1, Rights.READ_WRITE)
        self.assertIsNone(machine.compare(0))
        machine.map(0, 1, at=63)
        self.assertEqual(machine.compare(0), 63)
        machine.rewind(0)
        self.assertIsNone(machine.compare(0))

    def test_pages_put_back(self):
        machine = Machine(image=bytes([7]) * 256, frames=32)
        machine.open(0, 16)
        machine.map(0, 3, at=0)
        machine.map(0, 1, at=3, image_page=0)
        machine.write(0, address(0, 9), 1)
        machine.snapshot(0)
        self.assertEqual(machine.rewind(0), 0)
        for page in (0, 1, 3):
            machine.write(0, address(page, 255), 2)
        self.assertEqual((machine.rewind(0), machine.rewind(0)), (3, 0))
        # Written back; unmapped; and mapped anew.
        machine.write(0, address(0, 9), 2)
        machine.write(0, address(0, 9), 1)
        machine.write(0, address(1, 0), 2)
        machine.write(0, address(2, 0), 2)
        machine.unmap(0, 2, 1)
        self.assertEqual(machine.rewind(0), 1)
        machine.unmap(0, 0, 1)
        machine.map(0, 1, at=0)
        machine.write(0, address(0, 9), 2)
        self.assertEqual(machine.rewind(0), 0)

    def test_archive(self):
        image = bytes([7]) * 512
        machine = Machine(image, frames=16)
        for sandbox in (0, 3, 4, 65535):
            self.refused(Refusal.NOT_OPEN, machine.archive, sandbox)
        machine.open(1, 8)
        machine.map(1, 2, at=5, image_page=0)
        machine.write(1, address(6, 255), 0)
        machine.protect(1, 5, 1, Rights.READ)
        self.refused(Refusal.NO_SNAPSHOT, machine.archive, 1)
        machine.snapshot(1)
        machine.write(1, address(6, 0), 9)
        memory = (machine.state, machine.pool, machine.table)
        roll = machine.archive(1)
        lines = [[1, 1, 8, 0, 0, 0, 0], [2, 1, 5, 1, 1, 0, 3], [2, 1, 6, 1, 1, 1, 3], [6, 1, 1791, 0, 0, 0, 0], [4, 1, 5, 1, 1, 0, 0], [7, 1, 0, 0, 0, 0, 0]]
        self.assertEqual([list(map(int, line.split())) for line in roll.splitlines()], lines)
        self.assertEqual((machine.state, machine.pool, machine.table), memory)
        rebuilt = Machine(image, frames=16)
        for line in lines:
            rebuilt.answer(*line)
        self.assertEqual((rebuilt.archive(1), rebuilt.read(1, address(6, 255)), rebuilt.compare(1)), (roll, 0, None))
        self.assertEqual({reply[6:12] for reply in gazhuppin.play(roll, image, frames=16).splitlines()}, {b"     0"})
        self.assertRaises(ValueError, machine.archive, -1)
        self.assertRaises(ValueError, machine.archive, 65536)

    def test_a_refused_call_changes_nothing(self):
        machine = Machine(frames=4)
        machine.open(0, 4)
        before = (machine.state, machine.pool, machine.table)
        self.refused(Refusal.SHARE_EXCEEDED, machine.map, 0, 5)
        self.assertEqual((machine.state, machine.pool, machine.table), before)

    def test_wrong_lengths(self):
        for image, frames in ((b"", 0), (b"", 129), (b"", -1), (b"", 10**30), (b"x", 8), (bytes(65 * 256), 8)):
            self.refused(Refusal.UNSOUND, Machine, image, frames)
        self.assertEqual(len(Machine(bytes(64 * 256), 128).pool), 128 * 256)

    def test_numbers_are_not_cut_off(self):
        machine = Machine()
        machine.open(0, 8)
        machine.map(0, 1)
        for wrong in (65536, -1, 1 << 80):
            self.assertRaises(ValueError, machine.read, 0, wrong)
            self.assertRaises(ValueError, machine.write, 0, 0, wrong)
        self.assertRaises(TypeError, machine.read, 0, 1.5)
        self.assertRaises(ValueError, address, 0, 256)

    def test_memory_is_the_machines_own(self):
        machine = Machine(frames=1)
        for name in ("state", "pool", "table"):
            self.assertRaises(AttributeError, setattr, machine, name, b"")
            with self.assertRaises(TypeError):
                getattr(machine, name)[0] = 1
        self.assertEqual((len(machine.state), machine.pool, machine.table), (932, bytes(256), (0,) * 512))


class Rolls(unittest.TestCase):
    def image_of(self, roll):
        image = roll.with_suffix(".image")
        return image.read_bytes() if image.exists() else b""

    def test_example_rolls_played(self):
        rolls = sorted(EXAMPLES.glob("*.roll"))
        self.assertGreaterEqual(len(rolls), 21)
        for roll in rolls:
            with self.subTest(roll.name):
                played = gazhuppin.play(roll.read_bytes(), self.image_of(roll))
                self.assertEqual(played, roll.with_suffix(".answers").read_bytes())

    def test_example_rolls_a_call_at_a_time(self):
        for roll in sorted(EXAMPLES.glob("*.roll")):
            try:
                machine = Machine(self.image_of(roll))
            except Refused:
                continue  # an image of a wrong length: there is no machine to call
            answers = roll.with_suffix(".answers").read_text().splitlines()
            text = roll.read_bytes()
            for line, answer in enumerate(answers):
                fields = text[43 * line : 43 * line + 43]
                _, number, value = map(int, answer.split())
                if number == Refusal.MALFORMED:
                    continue
                with self.subTest(roll.name, line=line + 1):
                    try:
                        told = (0, machine.answer(*map(int, fields.split())))
                    except Refused as refused:
                        told = (refused.refusal, 0)
                    self.assertEqual(told, (number, value))


def load_tests(_loader, tests, _pattern):
    tests.addTests(doctest.DocTestSuite(gazhuppin))
    return tests


if __name__ == "__main__":
    unittest.main()
