"""How the lineage of a node is kept: the program's strategies by name, and words for whoever does not know the names.

docs/FORMATS.md ("How lineage is kept") says what each strategy keeps and what it costs. No strategy, and so no word,
changes an answer.
"""

from __future__ import annotations

from collections.abc import Iterable, Sequence
from typing import Literal, TypeAlias

from .cells import short
from .faults import BadInput

Word: TypeAlias = Literal["asked backward", "asked forward", "both", "small", "nothing"]
"""What is wanted of a node's lineage: how it will be asked, or how little is to be kept of it."""

Keep: TypeAlias = Word | Sequence[str]
"""How a node's lineage is kept: a word, or a list of one to three names of strategies."""

WITHOUT_MAPPING = frozenset(("lookup", "regions", "clean"))
"""The operators whose lineage depends on values, so that it is kept, or found by going through the node again."""

OPERATORS = WITHOUT_MAPPING | frozenset(
    "neg abs add_k mul_k clip add sub mul min max transpose slice convolve block fold_layers".split()
)

_NAMES = frozenset(
    "map blackbox full_one_b full_one_f full_many_b full_many_f pay_one pay_many comp_one comp_many".split()
)
_WHERE = 'docs/FORMATS.md, "How lineage is kept"'
_WITHOUT_MAPPING: dict[str, tuple[str, ...]] = {
    "asked backward": ("full_one_b",),
    "asked forward": ("full_one_f",),
    "both": ("full_one_b", "full_one_f"),
    "small": ("comp_many",),
    "nothing": ("blackbox",),
}


def strategies(word: str, operator: str) -> list[str]:
    """The names of the strategies that a word stands for where it is said of a node of this operator.

    For `lookup`, `regions` and `clean`:

    - "asked backward": `full_one_b`, which finds by an output cell the cells that it was made of
    - "asked forward": `full_one_f`, which finds by a cell of the inputs the output cells that it touched
    - "both": these two; they take the most memory, and the longest start
    - "small": `comp_many`, a small store: it has only the cells whose lineage is not the cell itself
    - "nothing": `blackbox`: an ask goes through the whole node again

    All other operators have a mapping, which answers in both directions and needs no store, so that each word stands
    for `map` there. Raises BadInput for another word, and for what is no operator.

    >>> subzero.strategies("small", "clean")
    ['comp_many']
    >>> subzero.strategies("small", "convolve")
    ['map']
    """
    if word not in _WITHOUT_MAPPING:
        raise BadInput(
            f"{short(word)} is no word for how lineage is kept: {_quoted(_WITHOUT_MAPPING)}; or it is a list of names "
            f'of strategies, as ["full_one_b"], which stand in {_WHERE}'
        )
    if operator not in OPERATORS:
        raise BadInput(f"{short(operator)} is no operator: {', '.join(sorted(OPERATORS))}")
    return list(_WITHOUT_MAPPING[word]) if operator in WITHOUT_MAPPING else ["map"]


def chosen_for(operator: str) -> list[str]:
    """What the program chooses for a node of this operator where nothing is set."""
    return strategies("nothing", operator)


def names_of(keep: Keep, operator: str) -> list[str]:
    """The names of strategies that are meant for a node of this operator. Raises BadInput for what are none."""
    if isinstance(keep, str):
        return strategies(keep, operator)
    if not isinstance(keep, Iterable):
        raise BadInput(f"{short(keep)} is neither a word for how lineage is kept nor a list of names of strategies")
    names = list(keep)
    for name in names:
        if name in _WITHOUT_MAPPING:
            raise BadInput(f'"{name}" is a word and no strategy: it stands alone, and not in a list')
        if name not in _NAMES:
            raise BadInput(f"{short(name)} is no strategy: {', '.join(sorted(_NAMES))}")
    return names


def _quoted(words: Iterable[str]) -> str:
    return ", ".join(f'"{word}"' for word in words)
