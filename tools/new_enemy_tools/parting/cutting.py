"""Cuts a trace, and the evidence for it, into parts by object."""
from array import array
from collections import Counter
from contextlib import ExitStack
from functools import partial
from hashlib import blake2b
from typing import Callable, Iterator, Optional

from new_enemy_tools.faults import naming
from new_enemy_tools.parting.blocks import Blocks, Source
from new_enemy_tools.parting.manifest import Manifest, Written, evidence_path, trace_path
from new_enemy_tools.parting.placing import EVERYWHERE, Objects
from new_enemy_tools.parting.sharing import shared
from new_enemy_tools.parting.spread import Spread, spread_evidence, spread_trace

BUFFER = 1 << 16


class Cut:
    """A cut into so many parts, by so many processes. `step` is told how many bytes were read."""

    def __init__(self, parts: int, folder: str, jobs: int, step: Callable[[int], None] = lambda count: None):
        self.parts = parts
        self.folder = folder
        self.jobs = jobs
        self.step = step
        self.read = 0
        # the part of each line of the trace, from 1
        self.table = array("H", [EVERYWHERE])
        self.name = blake2b(b"%d\n" % parts, digest_size=16)

    def cut(self, trace: Source, evidence: Optional[Source]) -> Manifest:
        """Writes the parts. Without evidence it is that of joined input, if the trace is such."""
        blocks = Blocks(trace, is_trace=True)
        traces = self._spread(trace_path, blocks, partial(spread_trace, self.parts, Objects(self.parts)))
        given = None
        if evidence is not None:
            given = Blocks(evidence)
        elif blocks.rest is not None:
            given = Blocks(trace, blocks.rest)
        records = None if given is None else self._spread(evidence_path, given, partial(spread_evidence, self.parts, self.table))
        entries = Counter(self.table)
        return Manifest(self.name.hexdigest(), self.parts, len(self.table) - 1,
                        [entries[part] for part in range(1, self.parts + 1)], traces, records)

    def _spread(self, path_of: Callable[[str, int], str], blocks: Blocks, spread: Callable[[bytes], Spread]) -> list[Written]:
        """Spreads the lines of a file over the parts; what each part has."""
        with ExitStack() as stack:
            files = [stack.enter_context(open(path_of(self.folder, part), "xb", buffering=BUFFER)) for part in range(1, self.parts + 1)]
            digest, digests = blake2b(digest_size=16), [blake2b(digest_size=16) for _ in files]
            for done in shared(spread, self._noted(blocks, digest), self.jobs):
                for file, made, pieces in zip(files, digests, done.pieces):
                    lines = b"".join(pieces)
                    made.update(lines)
                    with naming(file.name):
                        file.write(lines)
                self.table.extend(done.table)
            for file, made in zip(files, digests):
                made.update(blocks.too_long)
                with naming(file.name):
                    file.write(blocks.too_long)
                    file.flush()
            written = [Written(file.tell(), made.hexdigest()) for file, made in zip(files, digests)]
        digest.update(blocks.too_long)
        self.name.update(digest.digest())
        return written

    def _noted(self, blocks: Blocks, digest: blake2b) -> Iterator[bytes]:
        """The blocks, each of which the digest takes."""
        for block in blocks:
            digest.update(block)
            self.read += len(block)
            self.step(self.read)
            yield block
