"""The native handlers: each yields the calls it makes and is sent their answers. A refused call ends it."""
from values import BufferHandle, MarkerHandle, codes, text_of


def insert_filter(process, output):
    """Inserts the output at the mark of the process and moves the mark after it; point stays with its text."""
    buffer = yield "process-buffer", process
    if not isinstance(buffer, BufferHandle):
        return
    yield "set-buffer", buffer
    point = yield ("point",)
    mark = yield "process-mark", process
    if not isinstance(mark, MarkerHandle):
        return
    place = yield "marker-position", mark
    if not isinstance(place, int):
        return
    yield "goto-char", mark
    yield "insert", output
    end = yield ("point",)
    yield "set-marker", mark, end, buffer
    if point < place:
        yield "goto-char", point
    elif point > place:
        yield "goto-char", point + (end - place)


def drop_filter(_process, _output):
    yield from ()


def note_sentinel(_process, news):
    """Adds the news to the end of a buffer of events."""
    buffer = yield "get-buffer-create", text_of(codes("*events*"))
    yield "set-buffer", buffer
    end = yield ("point-max",)
    yield "goto-char", end
    yield "insert", news


NATIVES = {"insert-filter": insert_filter, "drop-filter": drop_filter, "note-sentinel": note_sentinel}
