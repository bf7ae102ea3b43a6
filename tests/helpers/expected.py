"""What one client alone reads of a server, line by line."""
from commands import answer, differs, done, is_command
from served import LONGEST_LINE

# Lines that ask for nothing, and their replies.
BAD_LINES = {
    "pot =a 0102": "refused 20 BadLine",
    "convert": "refused 20 BadLine",
    "put =a": "refused 20 BadLine",
    "put = 0102": "refused 21 BadKey",
    "put =a 01": "refused 22 BadValue",
    "x" * (LONGEST_LINE + 1): "refused 23 LineTooLong",
}


class Expected:
    """What one client alone is to read: the reply to each line, and the map behind all of them."""

    def __init__(self):
        self.values = {}
        self.accepted = 0

    def reply_to(self, line):
        """The reply, where one behind `acknowledged` stands for any number from it on."""
        if line in BAD_LINES:
            return BAD_LINES[line]
        if line == "flush":
            return f"acknowledged {self.accepted}"
        if not is_command(line):
            return answer(self.values, line.split()[1])
        if differs(self.values, line):
            return "differs"
        self.values = done(self.values, line)
        self.accepted += 1
        return f"accepted {self.accepted}"
