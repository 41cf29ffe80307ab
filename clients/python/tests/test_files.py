"""Arrays from files: `.npy`, `.csv` and FITS, with their empty cells, parts and axes."""

from __future__ import annotations

import tempfile
import unittest
from pathlib import Path
from typing import Any

import numpy as np

import subzero
from subzero import files

try:
    from astropy.io import fits
except ImportError:
    fits = None


class InFolder(unittest.TestCase):
    def setUp(self) -> None:
        folder = tempfile.TemporaryDirectory()
        self.addCleanup(folder.cleanup)
        self.folder = Path(folder.name)
        self.session = subzero.Session()
        self.addCleanup(self.session.close)


class Plain(InFolder):
    def test_npy(self) -> None:
        path = self.folder / "a.npy"
        np.save(path, np.array([[1.5, np.nan]]))
        with self.assertRaisesRegex(subzero.BadInput, "1 values are NaN"):
            self.session.load("a", path, scale=10)
        self.assertEqual(self.session.load("a", path, scale=10, empty="nan").values.tolist(), [[15, None]])
        np.save(path, np.array([[np.inf, np.nan]]))
        with self.assertRaisesRegex(subzero.BadInput, "NaN or infinite"):
            self.session.load("a", path, scale=10, empty="nan")

    def test_axes_of_length_1(self) -> None:
        path = self.folder / "a.npy"
        for shape, squeezed in (
            ((1, 1, 3, 4), (3, 4)),
            ((1, 3, 4), (3, 4)),
            ((1, 1, 4), (1, 4)),
            ((2, 1, 3, 4), (2, 3, 4)),
            ((5, 4, 1), (5, 4)),
            ((1, 4), (1, 4)),
            ((2, 3, 4), (2, 3, 4)),
        ):
            np.save(path, np.arange(np.prod(shape)).reshape(shape))
            with self.subTest(shape=shape):
                held = self.session.load("a", path, squeeze=True)
                self.assertEqual(held.shape, squeezed)
                self.assertEqual(held.values.ravel().tolist(), list(range(int(np.prod(shape)))))
        np.save(path, np.zeros((1, 1, 2, 2), dtype=int))
        with self.assertRaisesRegex(subzero.BadInput, "this one has 4"):
            self.session.load("a", path)

    def test_what_is_refused(self) -> None:
        np.save(self.folder / "a.npy", np.array([[1]]))
        (self.folder / "a.csv").write_text("1\n")
        (self.folder / "a.txt").write_text("1\n")
        cases: list[tuple[str, dict[str, Any], str]] = [
            ("a.npy", {"ext": 1}, "ext is for FITS files"),
            ("a.npy", {"empty": "zero"}, "empty is 'zero'"),
            ("a.txt", {}, "no .npy, no .csv and no FITS file"),
            ("a.csv", {"scale": 10}, "a .csv file is read by the program"),
            ("a.csv", {"empty": "nan"}, "a .csv file is read by the program"),
        ]
        for name, options, why in cases:
            with self.subTest(name=name, options=options), self.assertRaisesRegex(subzero.BadInput, why):
                self.session.load("a", self.folder / name, **options)


class Csv(InFolder):
    def load(self, text: str | bytes) -> subzero.BaseArray:
        path = self.folder / "A.CSV"
        path.write_bytes(text.encode() if isinstance(text, str) else text)
        return self.session.load("a", path)

    def test_the_values_are_those_that_the_program_reads(self) -> None:
        """As a flow over the array shows them."""
        for number, (text, rows) in enumerate(
            (
                ("1,2\n3,\n", [[1, 2], [3, None]]),
                ("-7,007,-0", [[-7, 7, 0]]),
                ('"1","2"\r\n\r\n3,""\r\n', [[1, 2], [3, None]]),
                ("\ufeff5\r6\r", [[5], [6]]),
                (",\n,\n", [[None, None], [None, None]]),
                ('""\n1\n', [[None], [1]]),
                ("9223372036854775807,-9223372036854775808\n", [[2**63 - 1, -(2**63)]]),
                ('1,"2', [[1, 2]]),
            )
        ):
            with self.subTest(text=text):
                held = self.load(text)
                self.assertEqual(held.values.tolist(), rows)
                flow = self.session.flow(f"f{number}")
                same = flow.add_k(flow.input(0), 0)
                run = self.session.start(flow, [held])
                self.assertEqual(run.values(same).tolist(), rows)
                self.assertEqual(run.back(same, (0, 0), to=held).sum(), 1)

    def test_what_the_program_refuses(self) -> None:
        for text in ("1,2\n3\n", "1.5\n", "nan\n", "+5\n", " 5\n", "9223372036854775808\n", ""):
            with self.subTest(text=text), self.assertRaises(subzero.Refused) as caught:
                self.load(text)
            self.assertEqual(caught.exception.number, 5)
        with self.assertRaisesRegex(subzero.BadInput, "no text in UTF-8"):
            self.load(b"\xff\xfe1\n")


@unittest.skipIf(fits is None, "astropy is not here")
class Fits(InFolder):
    def write(self, *units: Any) -> Path:
        path = self.folder / "a.fits"
        fits.HDUList(list(units)).writeto(path, overwrite=True)
        return path

    def image(self, values: Any, **cards: Any) -> Any:
        unit = fits.PrimaryHDU(values)
        unit.header.update(cards)
        return unit

    def test_blank_cells_are_empty_where_asked_for_and_else_refused(self) -> None:
        whole = np.array([[1, 2, -99], [4, 5, 6]])
        cases: list[tuple[Any, int]] = [
            (whole.astype(np.int16), -99),
            (whole.astype(np.int32), -99),
            (whole, -99),
            (np.array([[1, 2, 60_000], [4, 5, 6]], dtype=np.uint16), 60_000 - 32_768),
        ]
        for values, blank in cases:
            with self.subTest(kind=values.dtype):
                path = self.write(self.image(values, BLANK=blank))
                with self.assertRaisesRegex(subzero.BadInput, "1 cells of .* are BLANK"):
                    self.session.load("a", path)
                held = self.session.load("a", path, empty="nan")
                self.assertEqual(held.values.tolist(), [[1, 2, None], [4, 5, 6]])

    def test_blank_cells_of_a_compressed_image(self) -> None:
        unit = fits.CompImageHDU(np.array([[1, 2, -99], [4, 5, 6]], dtype=np.int16))
        unit.header["BLANK"] = -99
        path = self.write(fits.PrimaryHDU(), unit)
        self.assertEqual(self.session.load("a", path, empty="nan").values.tolist(), [[1, 2, None], [4, 5, 6]])
        unit = fits.CompImageHDU(np.array([[1, 65_535]], dtype=np.uint16))
        path = self.write(fits.PrimaryHDU(), unit)
        self.assertEqual(self.session.load("a", path).values.tolist(), [[1, 65_535]])

    def test_whole_numbers_are_exact(self) -> None:
        for values, blank in (
            (np.array([[2**62 + 1, -(2**63), -1]]), -1),
            (np.array([[2**62 + 1, 2**63 - 1, 0]], dtype=np.uint64), -(2**63)),
        ):
            path = self.write(self.image(values, BLANK=blank))
            held = self.session.load("a", path, empty="nan")
            self.assertEqual(held.values.tolist(), [[*values[0, :2].tolist(), None]])
        path = self.write(self.image(np.array([[-128, 127]], dtype=np.int8)))
        self.assertEqual(self.session.load("a", path).values.tolist(), [[-128, 127]])
        path = self.write(self.image(np.array([[2**63]], dtype=np.uint64)))
        with self.assertRaisesRegex(subzero.BadInput, "is above"):
            self.session.load("a", path)

    def test_scaled_and_float_images(self) -> None:
        unit = self.image(np.array([[1, 2, -99]], dtype=np.int16))
        unit.header.update(BLANK=-99, BSCALE=0.5, BZERO=10)
        path = self.write(unit)
        self.assertEqual(self.session.load("a", path, scale=10, empty="nan").values.tolist(), [[105, 110, None]])
        path = self.write(self.image(np.array([[1.5, np.nan]], dtype=np.float32)))
        self.assertEqual(self.session.load("a", path, scale=10, empty="nan").values.tolist(), [[15, None]])

    def test_a_part_by_number_name_or_name_and_version(self) -> None:
        table = fits.BinTableHDU.from_columns([fits.Column("x", "J", array=[1])], name="LIST")
        science = [fits.ImageHDU(np.array([[number]]), name="SCI", ver=number) for number in (1, 2)]
        path = self.write(fits.PrimaryHDU(), table, *science)
        parts: list[tuple[Any, int]] = [(None, 1), (2, 1), (3, 2), ("sci", 1), (("SCI", 2), 2)]
        for ext, value in parts:
            with self.subTest(ext=ext):
                self.assertEqual(self.session.load("a", path, ext=ext).values.tolist(), [[value]])
        missing: list[tuple[Any, str]] = [(9, "no part 9: it has 0 PRIMARY, 1 LIST, 2 SCI"), ("DQ", "no part 'DQ'")]
        for ext, why in missing:
            with self.subTest(ext=ext), self.assertRaisesRegex(subzero.BadInput, why):
                self.session.load("a", path, ext=ext)
        for ext in (0, "LIST"):
            with self.subTest(ext=ext), self.assertRaisesRegex(subzero.BadInput, "is no image"):
                self.session.load("a", path, ext=ext)
        with self.assertRaisesRegex(subzero.BadInput, "has no image"):
            files.read(self.write(fits.PrimaryHDU(), table))

    def test_axes_of_length_1(self) -> None:
        path = self.write(self.image(np.arange(6, dtype=np.int32).reshape(1, 1, 2, 3), BLANK=5))
        held = self.session.load("a", path, squeeze=True, empty="nan")
        self.assertEqual(held.values.tolist(), [[0, 1, 2], [3, 4, None]])


if __name__ == "__main__":
    unittest.main()
