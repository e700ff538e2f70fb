"""The rows of a program by subject: a subject's rows are those whose names begin with its word and a slash.

In pbx_message_rows a name that begins with no subject is of messages, and in pbx_link_rows it is of pools."""
import os

CRATES = os.path.join(os.path.dirname(os.path.dirname(os.path.dirname(os.path.abspath(__file__)))), "crates")
FOLDER = os.path.join(CRATES, "pbx_message_rows")
# The subjects of pbx_message_rows that have a word.
SUBJECTS = ("json/", "value/")


def stand_there(program, file, begins, text, write, others=False):
    """Whether those lines of the program's file are these that begin so, or with `others` the rest. To be written, they stand where the first stood."""
    path = os.path.join(CRATES, program, file)
    with open(path, encoding="utf-8", newline="\n") as stored:
        lines = [line + "\n" for line in stored.read().split("\n")[:-1]]
    own = [line.startswith(begins) != others for line in lines]
    if not write:
        return "".join(line for line, is_own in zip(lines, own) if is_own) == text
    first = own.index(True) if True in own else len(lines)
    behind = [line for line, is_own in zip(lines[first:], own[first:]) if not is_own]
    with open(path, "w", encoding="utf-8", newline="\n") as stored:
        stored.write("".join(lines[:first]) + text + "".join(behind))
    return True


def are_there(file, subject, text, write):
    """The same of the lines of a subject of pbx_message_rows; of messages where it has no word."""
    if subject == "":
        return stand_there("pbx_message_rows", file, SUBJECTS, text, write, others=True)
    return stand_there("pbx_message_rows", file, (subject,), text, write)
