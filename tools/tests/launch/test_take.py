"""A proof that travels: `tools/release` makes it, `./arterial take` puts it into a checkout of the same sources, and
`./arterial prove` confirms it there."""

import gzip
import hashlib
import io
import subprocess
import tarfile

import pytest

from .conftest import BUILT, HERE, SECONDS, Tried

TAKEN = "arterial: proved by its maker, not here (./arterial prove confirms it here)\n"


@pytest.fixture
def proof(proved, tmp_path):
    """The file of a proof, made of a proved copy."""
    ran = subprocess.run(
        [proved.top / "tools/release", "--no-package", tmp_path],
        capture_output=True,
        text=True,
        timeout=SECONDS,
        env={"PATH": f"{HERE}:/usr/bin:/bin", "TRIED": str(proved.told)},
    )
    assert ran.returncode == 0, ran.stderr
    found, name = ran.stdout.split()
    file = tmp_path / "arterial-0-proof.tgz"
    assert name == str(file) and found == hashlib.sha256(file.read_bytes()).hexdigest()
    return file


@pytest.fixture
def other(tmp_path):
    """Another copy of the same sources, in which nothing is proved."""
    (tmp_path / "elsewhere").mkdir()
    return Tried(tmp_path / "elsewhere")


def changed(proof, **members):
    """Writes the proof with other members in the place of its own."""
    with tarfile.open(proof) as archive:
        found = {it.name: archive.extractfile(it).read() for it in archive}
    plain = io.BytesIO()
    with tarfile.open(fileobj=plain, mode="w") as archive:
        for name, text in {**found, **members}.items():
            if text is not None:
                it = tarfile.TarInfo(name)
                it.size = len(text)
                archive.addfile(it, io.BytesIO(text))
    proof.write_bytes(gzip.compress(plain.getvalue()))


def test_a_proof_that_was_taken_answers_at_once_and_says_whose_it_is(other, proof):
    status, written, said = other.ran("take", str(proof), path="/nowhere")
    assert (status, written) == (0, "") and said.startswith("arterial: taken: proved by its maker, not here (commit ")
    assert other.ran("run", "--workers", "2", path="/nowhere") == (*BUILT, TAKEN)
    assert other.ran("--version", path="/nowhere") == (0, "arterial 0\n", TAKEN)
    asked = subprocess.run([other.top / "tools/proved"], capture_output=True, text=True)
    assert asked.stdout == f"{other.program}\n" and "proved by its maker, not here" in asked.stderr


def test_the_checksum_that_its_maker_published_is_compared(other, proof):
    right = hashlib.sha256(proof.read_bytes()).hexdigest()
    assert other.ran("take", str(proof), "--sum", "0" * 64)[0] == 2
    assert not other.program.exists()
    assert other.ran("take", str(proof), "--sum", right.upper())[0] == 0


def test_a_proof_of_other_sources_is_refused_with_the_first_file_that_differs(other, proof):
    (other.top / "crates/io_edge/src/lib.rt").write_text("// another\n")
    status, written, said = other.ran("take", str(proof))
    assert (status, written) == (2, "")
    assert said.endswith("a proof of other sources: crates/io_edge/src/lib.rt differs here\n")
    assert not other.program.exists()


def test_a_source_that_changes_afterwards_drops_it(other, proof):
    assert other.ran("take", str(proof))[0] == 0
    (other.top / "crates/io_edge/src/lib.rt").write_text("// another\n")
    said = other.ran("run", "--workers", "2")[2]
    assert "crates/io_edge/src/lib.rt has changed since the program was proved: the unproved program answers" in said


def test_a_program_that_is_put_in_its_place_is_refused(other, proof):
    assert other.ran("take", str(proof))[0] == 0
    other.program.unlink()
    other.program.write_text("#!/bin/sh\necho forged\n")
    other.program.chmod(0o755)
    assert other.ran("run")[:2] == (123, "")


def test_a_proof_here_confirms_it(other, proof):
    assert other.ran("take", str(proof))[0] == 0
    status, _, said = other.ran("prove")
    assert status == 0 and "confirmed: the program that was proved here is its maker's, byte for byte" in said
    assert other.ran("run", "--workers", "2") == (*BUILT, "")


def test_a_proof_here_of_another_program_says_so(other, proof):
    with tarfile.open(proof) as archive:
        program, sums = (archive.extractfile(name).read() for name in ("arterial", "sums"))
    forged = program + b"\n"
    old, new = (hashlib.sha256(it).hexdigest().encode() for it in (program, forged))
    changed(proof, arterial=forged, sums=sums.replace(old, new))
    assert other.ran("take", str(proof))[0] == 0
    status, _, said = other.ran("prove")
    assert status == 0 and "differs from its maker's" in said


def test_where_the_program_is_proved_already_nothing_is_taken_over(proved, proof):
    status, written, said = proved.ran("take", str(proof))
    assert (status, written) == (0, "") and "so nothing changes" in said
    assert proved.ran("run", "--workers", "2") == (*BUILT, "")


@pytest.mark.parametrize(
    ("members", "why"),
    [
        ({"maker": None}, "it lacks maker"),
        ({"../evil": b""}, "member '../evil'"),
        ({"arterial": b"#!/bin/sh\necho forged\n"}, "its program isn't the one of its sums"),
        ({"sums": b"0  x\n"}, "line '0  x' of its sums"),
        ({"sums": b"0" * 64 + b"  ../../etc/passwd\n"}, "of its sums"),
        ({"sums": b"0" * 64 + b"  /etc/passwd\n"}, "of its sums"),
    ],
)
def test_a_file_that_is_not_a_proof_is_refused_in_one_line(other, proof, members, why):
    changed(proof, **members)
    status, written, said = other.ran("take", str(proof))
    assert (status, written) == (2, "") and why in said and said.count("\n") == 1
    assert not other.program.exists()


@pytest.mark.parametrize("text", [b"", b"no archive", gzip.compress(b"no archive"), gzip.compress(b"x" * 600)[:-9]])
def test_damaged_bytes_are_refused_in_one_line(other, tmp_path, text):
    file = tmp_path / "damaged.tgz"
    file.write_bytes(text)
    status, written, said = other.ran("take", str(file))
    assert (status, written) == (2, "") and said.count("\n") == 1 and "Traceback" not in said


def test_a_file_that_is_missing_is_reported(other):
    status, _, said = other.ran("take", "/nowhere/proof.tgz")
    assert status == 1 and said.count("\n") == 1


def test_the_same_proof_gives_the_same_file(proved, proof, tmp_path):
    (tmp_path / "again").mkdir()
    subprocess.run(
        [proved.top / "tools/release", "--no-package", tmp_path / "again"],
        check=True,
        capture_output=True,
        env={"PATH": f"{HERE}:/usr/bin:/bin", "TRIED": str(proved.told)},
    )
    assert (tmp_path / "again/arterial-0-proof.tgz").read_bytes() == proof.read_bytes()


def test_an_unproved_checkout_has_no_release(tried):
    ran = subprocess.run([tried.top / "tools/release"], capture_output=True, text=True)
    assert ran.returncode == 125 and ran.stderr == "release: the program isn't proved here: ./arterial prove\n"
