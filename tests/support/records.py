"""Records in the batch format: a decimal length, LF and that many bytes."""

import dataclasses
import io
import pathlib

from support import programs


class Broken(Exception):
    """Bytes that are not in the batch format."""


def read_from(stream):
    """The records of a stream, one after the other."""
    while True:
        length = stream.readline(12)
        if not length:
            return
        if not length.endswith(b"\n") or not length[:-1].isdigit():
            raise Broken(f"{length!r} stands where a length was due")
        record = stream.read(int(length))
        if len(record) < int(length):
            raise Broken(f"{len(record)} bytes follow the length {int(length)}")
        yield record


def written(records):
    return b"".join(b"%d\n%b" % (len(record), record) for record in records)


@dataclasses.dataclass
class Sample:
    """Records, their classes, and the reference's text for each."""

    path: pathlib.Path
    records: list
    classes: list
    texts: list

    def first(self, count):
        """The first records alone."""
        return self.only("first-records", range(len(self.records))[:count])

    def parts(self, count):
        """The records dealt out in turn, as so many samples."""
        return [self.only(f"records-{at}", range(at, len(self.records), count)) for at in range(count)]

    def only(self, name, places):
        """Some of the records, in a file of that name."""
        path = programs.output_folder() / name
        records, classes, texts = ([of[at] for at in places] for of in (self.records, self.classes, self.texts))
        path.write_bytes(written(records))
        return Sample(path, records, classes, texts)


def answered(records, *options, program=None):
    """The texts of the reference, or of another program, with these options."""
    command = program or [str(programs.built("reference"))]
    printed = programs.run([*command, *options, "--batch"], input=written(records))
    texts = list(read_from(io.BytesIO(printed)))
    if len(texts) != len(records):
        raise programs.Failed(f"{command[0]} has {len(texts)} texts for {len(records)} records")
    return texts


def generate(options=()):
    """The Sample that the generator gives with these options."""
    reference = [str(programs.built("reference")), "--batch"]
    generator = [str(programs.built("generator")), *options]
    path = programs.output_folder() / "records"
    classes = programs.output_folder() / "classes"
    path.write_bytes(programs.run([*generator, "--classes", str(classes)]))
    with path.open("rb") as stream:
        texts = programs.run(reference, stdin=stream)
    with path.open("rb") as stream:
        records = list(read_from(stream))
    texts = list(read_from(io.BytesIO(texts)))
    sample = Sample(path, records, classes.read_text().splitlines(), texts)
    if not len(sample.records) == len(sample.classes) == len(sample.texts) > 0:
        counts = f"{len(sample.records)} records, {len(sample.classes)} classes"
        raise programs.Failed(f"{counts}, and {len(sample.texts)} texts of the reference")
    return sample
