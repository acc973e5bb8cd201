"""Runs the program on parts."""
import os
import shutil
import subprocess
import tempfile
from concurrent.futures import FIRST_EXCEPTION, ThreadPoolExecutor, wait
from contextlib import suppress
from typing import IO, Callable, Iterable, Optional

from new_enemy_tools.parting.manifest import Manifest, part_files, read_manifest, report_path
from new_enemy_tools.parting.reports import write_report

PIECE = 1 << 20
SECOND = 1.0

# Audits a trace by a program, with a file of evidence or with such as the program makes, and writes to two files.
Audit = Callable[[str, str, Optional[str], IO[bytes], IO[bytes]], int]


def audit(program: str, trace: str, evidence: Optional[str], output: IO[bytes], error: IO[bytes]) -> int:
    """The exit status, or below 0 the signal that killed the program. Evidence is given by joined input."""
    if evidence is None:
        return subprocess.run([program, "audit", trace, "--make"], stdin=subprocess.DEVNULL, stdout=output, stderr=error, check=False).returncode
    with subprocess.Popen([program], stdin=subprocess.PIPE, stdout=output, stderr=error) as process:
        assert process.stdin is not None
        try:
            for path, behind in (trace, b"---\n"), (evidence, b""):
                with open(path, "rb") as file:
                    shutil.copyfileobj(file, process.stdin, PIECE)
                process.stdin.write(behind)
            process.stdin.close()
        except BrokenPipeError:
            # Else what was not written would be tried again.
            with suppress(BrokenPipeError):
                process.stdin.close()
    return process.returncode


def run_part(program: str, manifest: Manifest, folder: str, part: int, by: Audit = audit, makes: bool = False) -> int:
    """Audits a part and keeps its report; the program's status."""
    trace, evidence = part_files(manifest, folder, part, makes)
    with tempfile.TemporaryFile(dir=folder) as output, tempfile.TemporaryFile(dir=folder) as error:
        status = by(program, trace, evidence, output, error)
        write_report(report_path(folder, part), manifest, part, status, output, error)
    return status


def run_parts(program: str, manifest: Manifest, folder: str, parts: Iterable[int], jobs: int, step: Callable[[int], None],
              makes: bool) -> list[int]:
    """Audits some parts, so many at a time; their statuses. `step` is told each second how many were audited."""
    with ThreadPoolExecutor(jobs) as pool:
        runs = [pool.submit(run_part, program, manifest, folder, part, audit, makes) for part in parts]
        waiting = set(runs)
        while waiting:
            done, waiting = wait(waiting, SECOND, FIRST_EXCEPTION)
            if any(run.exception() for run in done):
                pool.shutdown(cancel_futures=True)
                break
            step(len(runs) - len(waiting))
        return [run.result() for run in runs]


def run_all(program: str, folder: str, jobs: int, step: Callable[[int], None], makes: bool) -> list[str]:
    """Audits all parts, so many at a time; the paths of their reports, of which none is an earlier run's."""
    manifest = read_manifest(folder)
    parts = range(1, manifest.parts + 1)
    for part in parts:
        if os.path.exists(report_path(folder, part)):
            os.remove(report_path(folder, part))
    run_parts(program, manifest, folder, parts, jobs, step, makes)
    return [report_path(folder, part) for part in parts]
