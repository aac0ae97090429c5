"""The numbers of the table 'Why a call comes back', and the exception that carries one."""

LENGTH = 1
HEADER = 2
RECORD = 3
CHAIN = 4
SHAPE = 5
NUMBERS = 6
VERDICT = 7
EMPTY = 8
ROOM = 10
RULE = 11
NO_IMAGE = 13
ORDINAL = 14
NOT_IN_GAPS = 15


class Refused(Exception):
    """A call came back with this number."""

    def __init__(self, number: int) -> None:
        super().__init__(f"refused {number}")
        self.number = number
