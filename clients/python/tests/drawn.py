"""Flows drawn at random, over an image and a table of one row."""

from __future__ import annotations

from typing import Any

import numpy as np

import reference
import subzero


def draw_flow(flow: subzero.Flow, shapes: list[tuple[int, ...]], draw: np.random.RandomState) -> None:
    """Add 2 to 8 nodes of any operators to a flow over an image and a table, whose `shapes` are given."""
    places: list[Any] = [*flow.inputs]
    shapes = [*shapes]
    for _ in range(draw.randint(2, 9)):
        at = draw.randint(len(places))
        x, shape = places[at], shapes[at]
        like = [place for place, other in zip(places, shapes) if other == shape]
        height, width = shape[-2:]
        op = draw.choice(
            ["neg", "abs", "add_k", "mul_k", "clip", "add", "sub", "mul", "min", "max", "transpose"]
            + ["slice", "convolve", "block", "fold_layers", "lookup", "regions", "clean"] * 2
        )
        if op in ("add_k", "mul_k"):
            node = getattr(flow, op)(x, int(draw.randint(-3, 4)))
        elif op == "clip":
            node = flow.clip(x, -20, int(draw.randint(-20, 60)))
        elif op in ("add", "sub", "mul", "min", "max"):
            node = getattr(flow, op)(x, like[draw.randint(len(like))])
        elif op == "slice":
            h, w = int(draw.randint(1, height + 1)), int(draw.randint(1, width + 1))
            node = flow.slice(x, int(draw.randint(height - h + 1)), int(draw.randint(width - w + 1)), h, w)
        elif op == "convolve":
            node = flow.convolve(x, draw.randint(-1, 2, (draw.choice([1, 3, 5]), draw.choice([1, 3]))))
        elif op == "block":
            node = flow.block(
                x,
                str(draw.choice(["sum", "min", "max", "count"])),
                int(draw.randint(1, 4)),
                int(draw.randint(1, 4)),
            )
        elif op == "fold_layers":
            node = flow.fold_layers(x, str(draw.choice(["sum", "min", "max", "count"])))
        elif op == "lookup":
            node = flow.lookup(x, flow.input(1))
        elif op in ("regions", "clean"):
            node = getattr(flow, op)(x, int(draw.randint(-20, 60)))
        else:
            node = getattr(flow, op)(x)
        if draw.rand() < 0.7:
            supported = [kept for kept in reference.STRATEGIES if reference.supports(op, kept)]
            flow.keep(node, [str(kept) for kept in draw.choice(supported, draw.randint(1, 4), replace=False)])
        places.append(node)
        shapes.append(node.shape_from(shape))
