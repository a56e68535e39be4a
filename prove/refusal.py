"""Why a source, or what it promises, is not judged."""

# What else can be done with a promise that cannot be proved.
TRY_IT = "try it with a2lab promise"


class Refusal(Exception):
    """The error in a line: its line and column, from 1, with column 0 for the whole line; and its message."""

    def __init__(self, line, says, column=0):
        super().__init__(says)
        self.line = line
        self.column = column
        self.says = says

    def __str__(self):
        where = f"line {self.line}" if self.line else "the source"
        return f"{where}, column {self.column}: {self.says}" if self.column else f"{where}: {self.says}"
