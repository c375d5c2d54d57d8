"""The primitives that scripts call, by subject."""
from primitives import buffers, hooks, markers, overlays, processes, text, text_properties, undo
from primitives.table import PRIMITIVES
