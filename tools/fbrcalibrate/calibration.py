"""The prices of all primitives, one after another, and whether they bound what was measured."""
import math
from collections.abc import Callable
from dataclasses import dataclass

from .applications import Application
from .bench import Bench, Failure
from .micro import LIST, Micro
from .prices import WORDS, Prices


@dataclass(frozen=True)
class Worst:
    """The application that came nearest to its bound, or passed it, and the ratio of what was measured to the bound."""

    ratio: float
    which: str


def rounded(price: float) -> int:
    """A price, rounded up, and at least 1."""
    return max(1, math.ceil(price))


def applications() -> list[Application]:
    """All applications, each once."""
    return list(dict.fromkeys(make() for micro in LIST for make in (micro.small, micro.large) if make))


def more(bench: Bench, pair: list[Application], prices: Prices) -> int:
    """How much more the large application takes than the small one at these prices."""
    return bench.known(pair[-1], prices) - sum(bench.known(it, prices) for it in pair[:-1])


def steepest(bench: Bench, pair: list[Application], times: int) -> float:
    """The most that the large application took more than the small one, of so many times one after the other."""
    for it in pair * (times // 2):
        bench.still(it)
    took = []
    for _ in range(times):
        each = [bench.measured(it) for it in pair]
        took.append(each[-1] - sum(each[:-1]))
    return max(took)


def price_of(bench: Bench, micro: Micro, prices: Prices, slope: Callable[[list[Application]], float]) -> int:
    """The price of a primitive."""
    pair = [make() for make in (micro.small, micro.large) if make]
    unknown = [it for it in WORDS if it not in prices and it not in (micro.word, micro.beside) and more(bench, pair, {it: 1})]
    if unknown:
        raise Failure(f"the applications of {micro.word} differ in {unknown[0]}, whose price is not known")
    return rounded((slope(pair) - more(bench, pair, prices)) * micro.share / more(bench, pair, {micro.word: 1}))


def measure(bench: Bench, times: int) -> Prices:
    """The prices of all primitives. What comes together is split of one measurement, so that the parts make the whole."""
    bench.count(applications())
    prices: Prices = {}
    slopes: dict[tuple[Application, ...], float] = {}

    def slope(pair: list[Application]) -> float:
        """The slope of a pair, which is measured once."""
        if tuple(pair) not in slopes:
            slopes[tuple(pair)] = steepest(bench, pair, times)
        return slopes[tuple(pair)]

    for micro in LIST:
        prices[micro.word] = price_of(bench, micro, prices, slope)
    return prices


def validate(bench: Bench, prices: Prices) -> Worst:
    """Measures each application once more."""
    bounds = bench.all_bounds(applications(), prices)
    if wrong := [it.text for it, bound in bounds.items() if bound != bench.known(it, prices)]:
        raise Failure(f"this application has several ways, so that primitives were counted of different ones:\n{wrong[0]}")
    names = {make(): f"{micro.word}, {size}" for micro in LIST for size, make in (("small", micro.small), ("large", micro.large)) if make}
    return max((Worst(bench.measured(it) / bound, names[it]) for it, bound in bounds.items()), key=lambda it: it.ratio)


def scaled(prices: Prices, ratio: float) -> Prices:
    """All prices, so many times."""
    return {word: rounded(price * ratio) for word, price in prices.items()}
