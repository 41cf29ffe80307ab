"""Masks and units that come with what is handed in: numpy's masked arrays, astropy's containers, and lists of them."""

import unittest
from typing import Any

import numpy as np

import subzero
from subzero.cells import given, values_of

try:
    import astropy.nddata as nddata
    import astropy.table as table
    import astropy.units as units
    from astropy.utils.masked import Masked
except ImportError:
    nddata = None

DATA = np.array([[1, 2], [3, 4]])
MASK = np.array([[False, True], [False, False]])
HELD = [[1, None], [3, 4]]


def listed(values: Any, scale: float | None = None) -> list[Any]:
    """The values that would be handed in, empty cells as None."""
    numbers, empty = values_of(values, scale)
    return list(np.ma.MaskedArray(numbers, empty).tolist())


class Lists(unittest.TestCase):
    def test_masks_in_lists_are_honoured(self) -> None:
        masked: Any = np.ma.MaskedArray(DATA, MASK)
        self.assertEqual(listed([masked, DATA]), [HELD, DATA.tolist()])
        self.assertEqual(listed([masked[0], DATA[1]]), HELD)
        self.assertEqual(listed([[1, np.ma.masked], [3, 4]]), HELD)
        self.assertEqual(listed([[[1, 2]], [[np.ma.masked, None]]]), [[[1, 2]], [[None, None]]])
        self.assertEqual(listed([np.ma.masked_invalid([0.5, np.nan]), np.array([1.5, 2.5])], 2), [[1, None], [3, 5]])

    def test_lists_that_make_no_array(self) -> None:
        for values, why in (
            ([DATA, DATA[:1]], "differ in shape"),
            ([DATA, 3], "numbers and arrays"),
            ([np.ma.MaskedArray(DATA, MASK), [1, 2]], "differ in shape"),
        ):
            with self.assertRaisesRegex(subzero.BadInput, why):
                values_of(values)

    def test_a_mask_of_a_kind_that_is_not_known_is_not_lost(self) -> None:
        class Holder:
            mask = MASK

            def __array__(self, dtype: Any = None) -> np.ndarray[Any, Any]:
                return DATA

        with self.assertRaisesRegex(subzero.BadInput, "a mask of its own, which would be lost"):
            values_of(Holder())


@unittest.skipIf(nddata is None, "astropy is not here")
class Containers(unittest.TestCase):
    def test_masks_of_containers_are_honoured(self) -> None:
        for container in (
            nddata.NDData(DATA, mask=MASK),
            nddata.NDDataArray(DATA, mask=MASK),
            nddata.NDDataRef(DATA, mask=MASK),
            nddata.CCDData(DATA, mask=MASK, unit="adu"),
            nddata.NDData(np.ma.MaskedArray(DATA, MASK)),
            nddata.NDData(Masked(DATA, mask=MASK)),
            Masked(DATA, mask=MASK),
        ):
            with self.subTest(kind=type(container).__name__):
                self.assertEqual(listed(container), HELD)
                self.assertEqual(listed([container, container]), [HELD, HELD])
        self.assertEqual(listed(Masked(DATA * 0.5, mask=MASK) * units.Jy, 2), HELD)
        self.assertEqual(listed(nddata.NDData(DATA)), DATA.tolist())
        self.assertEqual(listed(nddata.NDData(DATA, mask=True)), [[None, None], [None, None]])

    def test_units_are_kept_and_told(self) -> None:
        with subzero.Session() as session:
            for values, unit in (
                (DATA * units.adu, units.adu),
                (nddata.CCDData(DATA, unit="electron"), units.electron),
                (nddata.NDData(DATA * units.Jy), units.Jy),
                (Masked(DATA, mask=MASK) * units.Jy, units.Jy),
                ([DATA[0] * units.Jy, DATA[1] * units.Jy], units.Jy),
                (table.Column(DATA, unit="Jy"), units.Jy),
                (table.MaskedColumn(DATA, mask=MASK, unit="Jy"), units.Jy),
                (DATA, None),
            ):
                scale = 1.0 if np.asarray(given(values).data).dtype.kind == "f" else None
                held = session.array("sky", values, scale=scale)
                self.assertEqual(held.unit, unit)
                self.assertEqual(f", in {unit}" in repr(held), unit is not None)
                self.assertEqual(held.values.filled(2).tolist(), DATA.tolist())

    def test_what_cannot_be_kept_is_refused(self) -> None:
        for values, why in (
            (nddata.NDData(DATA, uncertainty=nddata.StdDevUncertainty(DATA)), "the uncertainty of a NDData"),
            (nddata.NDDataArray(DATA, flags=DATA), "the flags of a NDDataArray"),
            (nddata.NDData(DATA, mask=DATA), "the mask holds int64"),
            (nddata.NDData(DATA, mask=MASK[:1]), "the mask has the shape"),
            ([DATA * units.Jy, DATA * units.adu], "several units: Jy, adu"),
        ):
            with self.assertRaisesRegex(subzero.BadInput, why):
                values_of(values)

    def test_a_masked_mask_of_cells_asks_what_is_not_masked(self) -> None:
        with subzero.Session() as session:
            sky = session.array("sky", DATA)
            flow = session.flow("f")
            node = flow.neg(flow.input(0))
            run = session.start(flow, [sky])
            asked = Masked(np.ones((2, 2), dtype=bool), mask=MASK)
            self.assertEqual(run.back(node, asked, to=sky).tolist(), (~MASK).tolist())

    def test_a_masked_container_goes_through_a_flow(self) -> None:
        with subzero.Session() as session:
            sky = session.array("sky", nddata.CCDData(DATA, mask=MASK, unit="adu"))
            flow = session.flow("f")
            node = flow.mul_k(flow.input(0), 2)
            run = session.start(flow, [sky])
            self.assertEqual(run.values(node).tolist(), [[2, None], [6, 8]])


if __name__ == "__main__":
    unittest.main()
