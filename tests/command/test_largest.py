"""The largest certificate that there is: n = m = 2,048, and L and U full to the diagonal.

The plan has 1 in its first row and first column and -1 on the rest of its
diagonal, and R and C are as the rows and columns stand. Then everything fills:
with 1/k modulo p, L[i][k] is -1/k below the diagonal and -(k + 1)/k on it, and
U[k][j] is 1/(k + 1) past it, but for the first column of L and row of U, all 1.
"""

import struct
import subprocess
import sys
import time
import unittest
from array import array

from kit import EXAMPLES, INCLUDE, LIBRARY, PATIENCE, Scratch, needs, plq, words

P, SIZE = 65_521, 2_048
LARGEST = 29 + 4 * (4 * SIZE + 2 + 4 * (SIZE * (SIZE + 1) // 2))


def text():
    triples = [f"1 {j} 1" for j in range(1, SIZE + 1)]
    for i in range(2, SIZE + 1):
        triples += [f"{i} 1 1", f"{i} {i} -1"]
    return "\n".join([f"{P}", f"{SIZE} {SIZE} M", *triples, "0 0 0\n"]).encode()


def lower():
    """Its starts, columns and values."""
    inverse = [pow(k, -1, P) for k in range(1, SIZE)]
    before = array("I", [1, *(P - over for over in inverse)])
    starts, columns, values = array("I", [0]), array("I"), array("I")
    for i in range(SIZE):
        diagonal = 1 if i == 0 else P - (i + 1) * inverse[i - 1] % P
        columns.extend(range(i + 1))
        values.extend(before[:i])
        values.append(diagonal)
        starts.append(len(columns))
    return starts, columns, values


def upper():
    starts, columns, values = array("I", [0]), array("I"), array("I")
    for k in range(SIZE):
        columns.extend(range(k, SIZE))
        values.append(1)
        values.extend(array("I", [pow(k + 1, -1, P)]) * (SIZE - k - 1))
        starts.append(len(columns))
    return starts, columns, values


def certificate():
    lists = [array("I", range(SIZE)), array("I", range(SIZE)), *lower(), *upper()]
    if sys.byteorder == "big":
        for numbers in lists:
            numbers.byteswap()
    counts = (SIZE * (SIZE + 1) // 2,) * 2
    header = struct.pack("<3sH6I", b"PLQ", 1, P, SIZE, SIZE, SIZE, *counts)
    return header + b"".join(numbers.tobytes() for numbers in lists)


class Largest(Scratch):
    @classmethod
    def setUpClass(cls):
        super().setUpClass()
        cls.plan, cls.certificate = cls.folder / "plan.txt", cls.folder / "largest.plq"
        cls.plan.write_bytes(text())
        cls.certificate.write_bytes(certificate())

    def test_it_passes(self):
        self.assertEqual(self.certificate.stat().st_size, LARGEST)
        self.assertEqual(LARGEST, 33_603_621)
        start = time.monotonic()
        passed = f"passed modulus {P} slots {SIZE} words {SIZE} rank {SIZE}\n".encode()
        self.assertDone(passed, "check", self.plan, self.certificate)
        seconds = time.monotonic() - start
        print(f"checked the largest certificate, {LARGEST:,} bytes, in {seconds:.1f} s")

    def test_the_example_takes_it(self):
        """examples/check.c reads all of it too."""
        needs("cc")
        program = self.path("check")
        source = (EXAMPLES / "check.c", LIBRARY, "-o", program)
        subprocess.run(["cc", "-O2", INCLUDE, *source], check=True, timeout=PATIENCE)
        self.assertDone(None, self.plan, self.certificate, command=(program,))

    def test_its_last_value_counts(self):
        """The last value of L, in the last row, is judged by the product."""
        last = LARGEST - 4 * (2 * (SIZE * (SIZE + 1) // 2) + SIZE + 1) - 4
        content = bytearray(self.certificate.read_bytes())
        content[last] ^= 1
        changed = self.path("changed.plq", content)
        what = "position 2047 (they count from 0), slot 2048: the product is not the plan"
        self.assertRefused("refused 14 at 2047", words(changed, what), "check", self.plan, changed)

    def test_one_byte_more_is_too_much(self):
        longer = self.path("longer.plq", self.certificate.read_bytes() + b"\0")
        self.assertRefused("refused 10 at 0", None, "check", self.plan, longer)

    def test_its_picture(self):
        """Full rows are one line each."""
        ended = plq("picture", self.plan, self.certificate)
        self.assertEnds(ended, 0, said="")
        self.assertLess(len(ended.output), 1_000_000)


if __name__ == "__main__":
    unittest.main()
