r"""The vector file, written here and read by tests/runner/main.rs.

Numbers are unsigned, highest byte first; u8, u32, u64 give their size. The file can be written and
read through a pipe: it is a row of entries, and an entry only names blobs that stand before it.

    file    "aspda vectors 1\n", the operations, then entries up to an 'E' entry
    operations  u8 how many, each: u8 length, name      all that there are, in rows or not
    entry   'B' u32 length, bytes                   a blob; blobs are numbered from 0
            'R' row                                 one call and its outcome
            'A' assembly row                        one call of program assembly and its outcome
            'E' u32 number of rows                  the end; a file without it was cut
    row     u8 operation                            its place in the list, from 0
            u8 length, name
            slice program                           empty for restrict
            slice set                               empty where the operation takes none
            u32 rule number                         show only, else 0
            u32 length of the lent buffer           0 where the operation takes none
            u64 word                                filter: the number of bytes written
            slice written                           what the lent buffer starts with after the call;
                                                    its bytes behind that are as they were lent
    assembly row
            u8 operation                            its place in the list, from 0
            u8 length, name
            slice state                             before the call
            slice record                            add only, else empty
            u32 length of the lent buffer           0 where the operation takes none
            u64 word
            slice state                             after the call
            u32 start                               where in the lent buffer
            slice written                           this stands after the call; all other bytes are
                                                    as they were lent
    slice   u8 number of pieces, each: u32 blob, u32 start, u32 length; the pieces are joined
"""

import struct

MAGIC = b"aspda vectors 1\n"

# A blob is stored again once this many others were met: a long random run needs no more memory.
REMEMBERED_BLOBS = 100_000


def short_text(text):
    return bytes((len(text),)) + text.encode("ascii")


class Writer:
    def __init__(self, stream, operations):
        self.stream = stream
        self.numbers = {}
        self.blobs = 0
        self.rows = 0
        names = [short_text(operation.name) for operation in operations]
        self.stream.write(MAGIC + bytes((len(names),)) + b"".join(names))

    def row(self, row):
        (self.assembly_row if row.operation.takes_state else self.call_row)(row)
        self.rows += 1

    def call_row(self, row):
        program, literals, written = map(self.slice, (row.program, row.literals, row.written))
        self.stream.write(b"".join((
            b"R", bytes((row.operation.number,)), short_text(row.name), program, literals,
            struct.pack(">IIQ", row.rule, row.room, row.word), written)))

    def assembly_row(self, row):
        slices = (row.state, row.record, row.after, row.written)
        state, record, after, written = map(self.slice, slices)
        self.stream.write(b"".join((
            b"A", bytes((row.operation.number,)), short_text(row.name), state, record,
            struct.pack(">IQ", row.room, row.word), after, struct.pack(">I", row.start), written)))

    def end(self):
        self.stream.write(b"E" + struct.pack(">I", self.rows))

    def slice(self, pieces_of):
        pieces = [struct.pack(">III", self.blob(base), start, length)
                  for base, start, length in pieces_of.pieces]
        return bytes((len(pieces),)) + b"".join(pieces)

    def blob(self, data):
        if data not in self.numbers:
            if len(self.numbers) >= REMEMBERED_BLOBS:
                self.numbers.clear()
            self.stream.write(b"B" + struct.pack(">I", len(data)) + data)
            self.numbers[data] = self.blobs
            self.blobs += 1
        return self.numbers[data]
