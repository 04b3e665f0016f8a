"""How long a lookup of the vectors takes, in Python alone and by the proved library."""
import time
from typing import Callable, Optional

from jellystore import light, native, vectors
from jellystore.refusals import Refused

ROUNDS, CALLS = 60, 500

LookUp = Callable[[bytes, bytes, bytes], Optional[bytes]]


def tried(look_up: LookUp, case: vectors.Lookup) -> None:
    """Makes a lookup, whatever it comes to."""
    try:
        look_up(case.root, case.name, case.reply)
    except Refused:
        pass


def microseconds(look_up: LookUp, cases: list[vectors.Lookup]) -> float:
    """Of a lookup of these: the mean of the round that took least, as other work on the machine makes most take longer."""
    count = CALLS // len(cases)
    rounds = []
    for _ in range(ROUNDS):
        began = time.process_time()
        for _ in range(count):
            for case in cases:
                tried(look_up, case)
        rounds.append((time.process_time() - began) * 1e6 / count / len(cases))
    return min(rounds)


def values(cases: list[vectors.Lookup], siblings: int) -> list[vectors.Lookup]:
    """The cases that show a value with so many siblings."""
    return [case for case in cases if case.reply.startswith(b"1 ok proof %d\n" % siblings) and case.shows.startswith("value")]


def main() -> None:
    cases = vectors.lookups()
    library = native.loaded()
    calls: dict[str, LookUp] = {"in Python alone": light.look_up, **({} if library is None else {"by the library": library.look_up})}
    for how, look_up in calls.items():
        mean, none, deep = (microseconds(look_up, it) for it in (cases, values(cases, 0), values(cases, 17)))
        print(f"{how}: a lookup takes {mean:.2f} us ({1e6 / mean:.0f} a second), a value with no sibling {none:.2f} us, with 17 siblings {deep:.2f} us")


if __name__ == "__main__":
    main()
