"""Compares the sets that our program writes with those of protoc, whole and field by field.

    compare.py PROGRAM FOLDER NAME..

PROGRAM is protox, and FOLDER holds the files of these names, all of which protoc takes. Both write the set of each file with all
imports and source information. Of protoc's records is taken away what docs/DIFFERENCES.md says that ours have not: the locations that we do
not list, comments, JSON names of extensions, and empty records of options; then both sets have to be equal, and ours has to
have no byte more than the usual encoding. A built-in file that is not in the folder is compared by its name alone (checks/built-in-files
compares what it holds). Prints the differences, and ends with 0 where there are none.
"""
import difflib
import os
import subprocess
import sys
import tempfile
from google.protobuf import descriptor_pb2 as pb

# The parts of a field that have a location: name, number, label, type, type name, options.
FIELD_PARTS = (1, 3, 4, 5, 6, 8)
# Of an enum value name, number and options; of a method name, input and output.
VALUE_PARTS = METHOD_PARTS = (1, 2, 3)


def is_listed(path):
    """Whether our profile has a location at the path."""
    if path in ([], [2], [12]):
        return True
    if len(path) < 2:
        return False
    part, rest = path[0], path[2:]
    return (part == 3 and not rest
            or part == 4 and is_listed_in_message(rest)
            or part == 5 and is_listed_in_named(rest, VALUE_PARTS)
            or part == 6 and is_listed_in_named(rest, METHOD_PARTS)
            or part == 7 and is_listed_in_part(rest, FIELD_PARTS))


def is_listed_in_part(rest, parts):
    return not rest or len(rest) == 1 and rest[0] in parts


def is_listed_in_named(rest, parts):
    """In an enum with its values or a service with its methods."""
    return is_listed_in_part(rest, (1,)) or len(rest) >= 2 and rest[0] == 2 and is_listed_in_part(rest[2:], parts)


def is_listed_in_message(rest):
    if is_listed_in_part(rest, (1,)):
        return True
    if len(rest) < 2:
        return False
    part, rest = rest[0], rest[2:]
    return (part in (2, 6) and is_listed_in_part(rest, FIELD_PARTS)
            or part == 3 and is_listed_in_message(rest)
            or part == 4 and is_listed_in_named(rest, VALUE_PARTS)
            or part == 8 and is_listed_in_part(rest, (1,)))


def byte_at(line, column):
    """How many bytes of the line stand before a column of protoc's, which moves to a multiple of 8 at a tab."""
    at = 0
    for index, byte in enumerate(line):
        if at >= column:
            return index
        at = at + 8 - at % 8 if byte == 9 else at + 1
    return len(line)


def in_bytes(lines, span):
    """The span with columns in bytes."""
    if len(span) == 3:
        line = lines[span[0]]
        return [span[0], byte_at(line, span[1]), byte_at(line, span[2])]
    return [span[0], byte_at(lines[span[0]], span[1]), span[2], byte_at(lines[span[2]], span[3])]


def listed_info(folder, file):
    """protoc's locations at the paths of our profile, sorted, without comments."""
    spans, info = {}, pb.SourceCodeInfo()
    with open(os.path.join(folder, file.name), "rb") as source:
        lines = source.read().split(b"\n")
    for it in file.source_code_info.location:
        spans.setdefault(tuple(it.path), []).append(in_bytes(lines, list(it.span)))
    for path in sorted(spans):
        if not is_listed(list(path)):
            continue
        if any(span != spans[path][0] for span in spans[path]):
            raise SystemExit(f"protoc has several locations at {list(path)} of {file.name}: {spans[path]}")
        # A file without tokens stands at its beginning; protoc begins it at the end of its comments.
        is_empty = not path and len(spans[path][0]) == 4 and spans[path][0][2:] == [0, 0]
        info.location.add(path=path, span=[0, 0, 0] if is_empty else spans[path][0])
    return info


def extensions_of(holder):
    """The extensions of a file or a message, with those of nested messages."""
    yield from holder.extension
    for message in holder.message_type if isinstance(holder, pb.FileDescriptorProto) else holder.nested_type:
        yield from extensions_of(message)


def is_in(folder, file):
    return os.path.exists(os.path.join(folder, file.name))


def as_ours(folder, file):
    """protoc's record, as ours has to be."""
    for extension in extensions_of(file):
        # protoc gives extensions a JSON name too, which no source may write; their key in JSON is another.
        extension.ClearField("json_name")
    for service in file.service:
        for method in service.method:
            # protoc keeps an empty record of options for an empty block.
            if not method.options.ListFields():
                method.ClearField("options")
    file.source_code_info.CopyFrom(listed_info(folder, file))
    return file


def written(program, folder, *words):
    """The set that the program writes in the folder by these words, with all imports and source information, or what it says."""
    with tempfile.TemporaryDirectory() as room:
        path = os.path.join(room, "set")
        words = [program, "--include_imports", "--include_source_info", f"--descriptor_set_out={path}", *words]
        ran = subprocess.run(words, cwd=folder, stdin=subprocess.DEVNULL, capture_output=True, text=True)
        if ran.returncode:
            return ran.stderr.strip() or f"status {ran.returncode}"
        with open(path, "rb") as file:
            return file.read()


def written_by(program, folder, name):
    """The set of the file that the program writes, or what it says."""
    return written(program, folder, "-I.", name)


def written_again(program, stored, name):
    """The set of the file that the program writes of a stored set, or what it says."""
    with tempfile.TemporaryDirectory() as room:
        with open(os.path.join(room, "stored"), "wb") as file:
            file.write(stored)
        return written(program, room, "--descriptor_set_in=stored", name)


def spans_of(file):
    return [(list(it.path), list(it.span)) for it in file.source_code_info.location]


def file_differences(mine, theirs):
    """Lines that say in what our record differs."""
    if mine == theirs:
        return
    my_spans, their_spans = spans_of(mine), spans_of(theirs)
    for it in my_spans:
        if it not in their_spans:
            yield f"location {it[0]}: ours {it[1]}"
    for it in their_spans:
        if it not in my_spans:
            yield f"location {it[0]}: protoc's {it[1]}"
    if [it for it, _ in my_spans] != sorted(it for it, _ in my_spans):
        yield "our locations are not sorted"
    for it in (mine, theirs):
        it.ClearField("source_code_info")
    yield from difflib.unified_diff(str(mine).split("\n"), str(theirs).split("\n"), "ours", "protoc's", lineterm="")


def differences(program, folder, name):
    """Lines that say in what our set of the file differs."""
    told, ours = written_by("protoc", folder, name), written_by(program, folder, name)
    if isinstance(told, str):
        raise SystemExit(f"protoc refuses {name}: {told}")
    if isinstance(ours, str):
        yield ours
        return
    theirs, mine = pb.FileDescriptorSet.FromString(told), pb.FileDescriptorSet.FromString(ours)
    if len(ours) != mine.ByteSize():
        yield f"{len(ours)} bytes encode it, protoc needs {mine.ByteSize()}"
    my_names, their_names = [it.name for it in mine.file], [it.name for it in theirs.file]
    if my_names != their_names:
        yield f"files: ours {my_names}, protoc's {their_names}"
        return
    for one, other in zip(mine.file, theirs.file):
        if is_in(folder, other):
            for line in file_differences(one, as_ours(folder, other)):
                yield f"{other.name}: {line}"


def main(program, folder, *names):
    program, wrong = os.path.abspath(program), 0
    for name in names:
        lines = list(differences(program, folder, name))
        wrong += bool(lines)
        for line in lines:
            print(f"{name}: {line}")
    if wrong or not names:
        print(f"{wrong} of {len(names)} files in {folder} differ from protoc's")
        return 1
    return 0


if __name__ == "__main__":
    sys.exit(main(*sys.argv[1:]))
