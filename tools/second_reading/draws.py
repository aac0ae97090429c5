"""The random numbers of the gate's programs: Lehmer's generator, so that every run draws the same."""

PRIME = 2_147_483_647
FACTOR = 48_271


def following(state: int) -> int:
    """The state after this one."""
    return state % PRIME * FACTOR % PRIME


def picked(state: int, below: int) -> int:
    """A number below `below`, and 0 where there is none."""
    return state % below if below else 0


class Draws:
    """The generator, with the state that it has come to."""

    def __init__(self, state: int) -> None:
        self.state = state

    def pick(self, below: int) -> int:
        """The generator goes on, and a number is picked."""
        self.state = following(self.state)
        return picked(self.state, below)
