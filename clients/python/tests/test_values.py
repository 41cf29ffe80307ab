"""What is handed in, and how numbers are written and read."""

import json
import tempfile
import unittest
from pathlib import Path
from typing import Any

import numpy as np

import subzero
from subzero import numerals
from subzero.cells import cells_of, values_of

GREATEST, LEAST = 2**63 - 1, -(2**63)


class Numerals(unittest.TestCase):
    def test_edges_of_digits(self) -> None:
        numbers = [
            0,
            1,
            9,
            10,
            999,
            9999,
            10000,
            10001,
            99999999,
            10**8,
            10**8 + 1,
            10**12,
            10**16 + 5,
            GREATEST,
        ]
        numbers += [-number for number in numbers] + [LEAST]
        for number in numbers:
            row = [[number, 0, -1], [7, number, 20000]]
            self.assertEqual(json.loads(numerals.rows_text(np.array(row), None)), row)
            self.assertEqual(json.loads(numerals.rows_text(np.array([[number]]), None)), [[number]])

    def test_random_rows_are_written_and_read(self) -> None:
        draw = np.random.RandomState(3)
        for _ in range(200):
            shape = draw.randint(1, 12, 2)
            bound = 10 ** draw.randint(1, 19)
            numbers, empty = draw.randint(-bound, bound, shape, dtype=np.int64), draw.rand(*shape) < 0.3
            rows = np.ma.MaskedArray(numbers, empty).tolist()
            self.assertEqual(json.loads(numerals.rows_text(numbers, empty)), rows)
            flat = [value for row in rows for value in row]
            text = " ".join("-" if value is None else str(value) for value in flat).encode()
            values, holes = numerals.read_values(text, len(flat))
            self.assertEqual(np.ma.MaskedArray(values, holes).tolist(), flat)

    def test_random_cells_are_written_and_read(self) -> None:
        draw = np.random.RandomState(4)
        for axes in (2, 3):
            for count in (0, 1, 50):
                cells = draw.randint(0, 10 ** draw.randint(1, 7), (count, axes))
                self.assertEqual(json.loads(numerals.cells_text(cells)), cells.tolist())
                text = " ".join(",".join(map(str, cell)) for cell in cells.tolist()).encode()
                self.assertEqual(numerals.read_cells(text, count, axes).tolist(), cells.tolist())

    def test_a_reply_that_is_too_short(self) -> None:
        with self.assertRaises(subzero.OutOfStep):
            numerals.read_values(b"1 2", 3)


class Values(unittest.TestCase):
    def test_what_is_taken(self) -> None:
        given: Any
        for given, expected in (
            ([[1, 2], [3, 4]], [[1, 2], [3, 4]]),
            ([[1, None]], [[1, None]]),
            ([[None, None]], [[None, None]]),
            ([[GREATEST, None, LEAST]], [[GREATEST, None, LEAST]]),
            (np.array([[250]], dtype=np.uint8), [[250]]),
            (np.array([[GREATEST]], dtype=np.uint64), [[GREATEST]]),
            (np.array([[-3, 4]], dtype=">i2"), [[-3, 4]]),
            (np.arange(12).reshape(3, 4)[::2, ::-1], [[3, 2, 1, 0], [11, 10, 9, 8]]),
            (np.ma.MaskedArray(np.array([[1, 2**63]], dtype=np.uint64), [[False, True]]), [[1, None]]),
            (np.ma.masked_invalid([[np.nan, np.inf]]), [[None, None]]),
            (np.ones((16, 1, 1), dtype=int), [[[1]]] * 16),
        ):
            with self.subTest(given=given):
                values, empty = values_of(given)
                self.assertEqual(values.dtype, np.int64)
                self.assertEqual(np.ma.MaskedArray(values, empty).tolist(), expected)

    def test_floats_are_scaled_where_the_caller_says_by_what(self) -> None:
        self.assertEqual(values_of([[-(2.0**63)]], scale=1)[0].tolist(), [[LEAST]])
        values, empty = values_of(np.ma.masked_invalid([[0.1, -2.55, np.nan]]), scale=100)
        self.assertEqual(np.ma.MaskedArray(values, empty).tolist(), [[10, -255, None]])
        given: Any
        for given, scale, why in (
            ([[1.0]], None, "floats: say by scale"),
            ([[np.nan]], 10, "NaN"),
            ([[np.inf]], 10, "infinite"),
            ([[1e19]], 1, "no whole number of 64 bits"),
            ([[2.0**63]], 1, "no whole number of 64 bits"),
            ([[-(2.0**63) - 2048]], 1, "no whole number of 64 bits"),
            ([[-1e10]], 1e10, "no whole number of 64 bits"),
            ([[1.5]], 0, "not 0"),
            ([[1.5]], float("nan"), "not 0"),
            ([[1]], 10, "multiply them in numpy"),
        ):
            with self.subTest(given=given, scale=scale), self.assertRaisesRegex(subzero.BadInput, why):
                values_of(given, scale)

    def test_what_is_refused(self) -> None:
        given: Any
        for given, why in (
            ([1, 2], "2 axes"),
            (5, "2 axes"),
            (np.zeros((1, 1, 1, 1), dtype=int), "2 axes"),
            ([[]], "no cells"),
            (np.zeros((17, 1, 1), dtype=int), "16 layers"),
            (np.zeros((1025, 1024), dtype=int), "1,048,576 cells, .*: subzero.tiled cuts it"),
            ([[1, 2], [3]], "make no array|2 axes"),
            ([[True, False]], "True and False"),
            ([["a"]], "no numbers"),
            ([[1j]], "no numbers"),
            ([[None, "a"]], "no numbers"),
            ([[2**63]], "above 9223372036854775807"),
            ([[2**64, 1]], "no whole number of 64 bits"),
            ([[None, 2**64]], "no whole number of 64 bits"),
            ([[None, -(2**63) - 1]], "no whole number of 64 bits"),
            (np.array([["2001-01-01"]], dtype="datetime64[D]"), "no numbers"),
        ):
            with self.subTest(given=str(given)), self.assertRaisesRegex(subzero.BadInput, why):
                values_of(given)

    def test_cells(self) -> None:
        self.assertEqual(cells_of((1, 2), (3, 4)).tolist(), [[1, 2]])
        self.assertEqual(cells_of([(1, 2), (0, 0)], (3, 4)).tolist(), [[1, 2], [0, 0]])
        self.assertEqual(cells_of([], (3, 4)).tolist(), [])
        self.assertEqual(cells_of((1, 1, 2), (2, 3, 4)).tolist(), [[1, 1, 2]])
        self.assertEqual(cells_of(np.eye(2, dtype=bool), (2, 2)).tolist(), [[0, 0], [1, 1]])
        self.assertEqual(cells_of(np.argwhere(np.eye(2)), (2, 2)).tolist(), [[0, 0], [1, 1]])
        mask: Any = np.ma.MaskedArray([[True, True], [False, True]], [[False, True], [True, False]])
        self.assertEqual(cells_of(mask, (2, 2)).tolist(), [[0, 0], [1, 1]])
        cells: Any
        for cells, why in (
            ([(3, 0)], r"\(3, 0\) is out of range"),
            ([(0, 0), (0, -1)], r"\(0, -1\) is out of range"),
            ([(0, 0, 0)], "2 numbers"),
            ([(0.0, 0.0)], "whole numbers"),
            (np.ones((2, 2), dtype=bool), "the mask has the shape"),
            (((1, 2), (0, 0)), "a tuple of lists"),
            (([1, 2], [0, 0]), "a tuple of lists"),
            (np.ma.MaskedArray([[1, 2]], [[False, True]]), "masked"),
        ):
            with self.subTest(given=str(cells)), self.assertRaisesRegex(subzero.BadInput, why):
                cells_of(cells, (3, 4))

    def test_an_index_means_what_numpy_means_by_it(self) -> None:
        image = np.arange(12).reshape(3, 4)
        cube = np.arange(24).reshape(2, 3, 4)
        index: Any
        for array, index in (
            (image, np.where(image >= 10)),  # exactly two cells
            (image, np.where(image % 5 == 0)),
            (image, np.where(image < 0)),
            (image, np.nonzero(image == 6)),
            (image, np.s_[1:, 2]),
            (image, np.s_[::2, ::3]),
            (image, np.s_[1:2]),
            (image, np.s_[:, -1]),
            (image, np.s_[..., 0]),
            (image, np.ix_([0, 2], [1, 3])),
            (cube, np.where(cube % 7 == 0)),
            (cube, np.s_[:, 1, 2]),
            (cube, np.s_[1, 1:, :2]),
        ):
            with self.subTest(index=str(index)):
                expected = np.zeros(array.shape, dtype=bool)
                expected[index] = True
                self.assertEqual(cells_of(index, array.shape).tolist(), np.argwhere(expected).tolist())
        for shape, index, why in (
            ((3, 4), (np.array([0]), np.array([4])), "none of an array"),
            ((3, 4), (np.array([0]), np.array([-1])), "out of range"),
            ((3, 4), (np.array([0]),), "1 arrays"),
            ((3, 4), (np.array([0, 1]), np.array([0, 1, 2])), "none of an array"),
            ((3, 4), (np.array([0.5]), np.array([0.5])), "no part of an index"),
            ((3, 4), (slice(None), None), "no part of an index"),
            ((2, 3, 4), np.where(image >= 10), "2 arrays"),
        ):
            with self.subTest(index=str(index)), self.assertRaisesRegex(subzero.BadInput, why):
                cells_of(index, shape)

    def test_two_numbers_are_no_cell_of_an_array_with_layers(self) -> None:
        """numpy would take the first of them for the layer."""
        cells: Any
        for cells in ((1, 2), [(1, 2)], np.array([[1, 2]])):
            with self.assertRaisesRegex(subzero.BadInput, r"as in \(0, 1, 2\), or np\.s_\[:, 1, 2\]"):
                cells_of(cells, (2, 3, 4))

    def test_where_asks_what_the_mask_asks(self) -> None:
        with subzero.Session() as session:
            sky = session.array("sky", np.arange(12).reshape(3, 4))
            flow = session.flow("f")
            node = flow.transpose(flow.input(0))
            run = session.start(flow, [sky])
            mask = np.zeros((4, 3), dtype=bool)
            mask[1, 2] = mask[3, 0] = True
            self.assertEqual(np.argwhere(run.back(node, np.where(mask), to=sky)).tolist(), [[0, 3], [2, 1]])


class Arrays(unittest.TestCase):
    def test_versions_and_what_is_held(self) -> None:
        with subzero.Session() as session:
            given: Any = np.ma.MaskedArray([[1, 2]], [[False, True]])
            first, second = session.array("sky", given), session.array("sky", [[[5]], [[6]]])
            self.assertEqual(
                (str(first), first.shape, str(second), second.shape), ("array sky 1", (1, 2), "array sky 2", (2, 1, 1))
            )
            given[0, 0] = 9
            self.assertEqual(first.values.tolist(), [[1, None]])
            with self.assertRaises(ValueError):
                first.values[0, 0] = 3
            name: Any
            for name in ("", "Sky", "a" * 33, "é", "a b", 'a"', None):
                with self.subTest(name=name), self.assertRaisesRegex(subzero.BadInput, "no name"):
                    session.array(name, [[1]])

    def test_empty_cells_go_through(self) -> None:
        with subzero.Session() as session:
            sky = session.array("sky", [[1, None, 3], [None, None, -4]])
            flow = session.flow("f")
            node = flow.mul_k(flow.input(0), 2)
            run = session.start(flow, [sky])
            self.assertEqual(run.values(node).tolist(), [[2, None, 6], [None, None, -8]])

    def test_files(self) -> None:
        with tempfile.TemporaryDirectory() as folder, subzero.Session() as session:
            path = Path(folder) / "sky.npy"
            np.save(path, np.array([[1, 2], [3, 4]]))
            self.assertEqual(session.load("sky", path).values.tolist(), [[1, 2], [3, 4]])
            with self.assertRaisesRegex(subzero.BadInput, "no FITS"):
                session.load("sky", Path(folder) / "sky.txt")
            try:
                from astropy.io import fits
            except ImportError:
                self.skipTest("astropy is not here")
            path = Path(folder) / "sky.fits"
            fits.writeto(path, np.array([[0.25, 0.5]], dtype=np.float32))
            self.assertEqual(session.load("sky", path, scale=100).values.tolist(), [[25, 50]])
            with self.assertRaisesRegex(subzero.BadInput, "floats"):
                session.load("sky", path)
            units = fits.HDUList([fits.PrimaryHDU(), fits.ImageHDU(np.array([[-7, 40000]], dtype=np.int32))])
            units.writeto(path, overwrite=True)
            self.assertEqual(session.load("sky", path).values.tolist(), [[-7, 40000]])


if __name__ == "__main__":
    unittest.main()
