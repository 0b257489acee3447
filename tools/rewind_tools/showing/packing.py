"""The positions of a recorded page in few bytes. Some positions after one another are a piece: of each
member the values that it takes, each with the position in the piece from which it has it. page/recorded.js
reads pieces."""
import base64
import json
import zlib

# How many positions a piece has, and which members are objects whose own members are packed each by itself.
SIZE, DEEP = 32, {"picture", "picture/state", "why"}


def flat(value, path=""):
    """The members of an object by their paths."""
    members = {}
    for key, it in value.items():
        name = f"{path}/{key}" if path else key
        if name in DEEP and it is not None:
            members.update(flat(it, name))
        else:
            members[name] = it
    return members


def compressed(value):
    """A value as text in few bytes."""
    text = json.dumps(value, separators=(",", ":"), ensure_ascii=False)
    return base64.b64encode(zlib.compress(text.encode(), 9)).decode()


class Packer:
    """Packs positions, one after the other."""

    def __init__(self):
        self.count, self.pieces, self.members, self.last = 0, [], {}, {}

    def add(self, position):
        here = self.count % SIZE
        if self.count and not here:
            self.end_piece()
        members = flat(position)
        for path in [*members, *(it for it in self.last if it not in members)]:
            value = members.get(path)
            if path not in self.last or self.last[path] != value:
                self.members.setdefault(path, []).append([here, value])
        self.last = {path: members.get(path) for path in self.members}
        self.count += 1

    def end_piece(self):
        self.pieces.append(compressed(self.members))
        self.members, self.last = {}, {}

    def packed(self):
        """All positions: how many a piece has, and the pieces."""
        if self.members:
            self.end_piece()
        return {"size": SIZE, "pieces": self.pieces}
