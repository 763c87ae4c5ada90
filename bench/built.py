"""The program fle_bench, for the scripts of this folder. Run from the top."""
import os
import subprocess


def fle_bench(processor=None):
    """The path of the program that FLE_BENCH names, or of the one that is built in crates/fle_bench, with its proof,
    for a processor, that of bench/processor where none is given; and which program it is, as a sentence has it."""
    if "FLE_BENCH" in os.environ:
        return os.environ["FLE_BENCH"], "the program of FLE_BENCH"
    processor = processor or subprocess.run(["bench/processor"], stdout=subprocess.PIPE, check=True,
                                            text=True).stdout.strip()
    subprocess.run(["rt", "run", "--cpu", processor, "--", "cbc-seal-tables", "16", "1"], cwd="crates/fle_bench",
                   check=True, stdout=subprocess.DEVNULL, stderr=subprocess.DEVNULL)
    return "crates/fle_bench/out/fle_bench", f"a program built for {processor}"
