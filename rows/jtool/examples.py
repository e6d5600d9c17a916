"""The scripts of examples/, each of which is answered as the output beside it says."""

from pathlib import Path

from program_rows import Ended, Wrong, wants_run

EXAMPLES = Path(__file__).resolve().parents[2] / "examples"


# Of `jtool::main::run`: the examples answer what stands beside them.
def examples_are_answered(room):
    for script in sorted(EXAMPLES.glob("*.script")):
        output = script.with_suffix(".out").read_bytes()
        wanted = Ended(output, b"", 2 if b"bad line" in output.split(b"\n") else 0)
        try:
            wants_run(room.run(["jtool", "script", "600"], script.read_bytes()), wanted)
        except Wrong as wrong:
            raise Wrong(f"{script.name}: {wrong}") from None
