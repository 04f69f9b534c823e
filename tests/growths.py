"""The growths that checks of texts ask for, which are counted and refused by a small library.

It is no test itself. The quick way to the fields of a line asks for no growth, which shows the lines that it takes.
"""

import sys
import tempfile

from program import TOP

# (nothing is left beside the examples)
sys.dont_write_bytecode = True
sys.path.append(str(TOP / "examples" / "hostile"))
import refuse_growths
from refuse_growths import Refusing

NO_MEMORY = refuse_growths.NO_MEMORY

# More growths than any of these checks asks for.
MANY = 512


class Growths:
    """Checks texts with few growths. The library is compiled into the folder, and the texts are put there."""

    def __init__(self, program, folder):
        self.program, self.folder, self.refusing = program, folder, Refusing(folder)

    def check(self, text, few):
        """How a check of the text ends that gets so many growths and not the next one, and whether it asked for
        that."""
        with tempfile.NamedTemporaryFile(dir=self.folder) as file:
            file.write(text.encode())
            file.flush()
            return self.refusing.run([self.program, "check", file.name], few + 1)

    def count(self, text):
        """How many growths a check of the text asks for."""
        least, most = 0, MANY
        while least < most:
            few = (least + most) // 2
            _, asks_for_more = self.check(text, few)
            least, most = (few + 1, most) if asks_for_more else (least, few)
        return least
