#!/usr/bin/env python3
"""Lays out a program that is only there to be measured as a crate, proves it and runs it.

    python3 docs/bench/measured.py FOLDER NAME [WORD ..]

The sources, specs and proofs of such programs stand beside this script, one folder a program, and are no part of the gate. FOLDER
gets a copy of all crates of the repository and the program NAME as one more; there `rt run -- WORD ..` proves NAME, and what
below it isn't proved yet, and runs it. The built program is FOLDER/crates/NAME/out/NAME. With the same FOLDER a later run proves
only what changed.
"""
import shutil
import subprocess
import sys
from pathlib import Path

HERE = Path(__file__).resolve().parent
TOP = HERE.parent.parent
# What each program uses, as in a line of crates.txt.
USES = {
    "cost_turn": "fsw_base turn_lock",
    "cost_pool": "es_pool step_count fsw_base",
    "cost_buffer": "buf_desc step_count fsw_base",
    "cost_table": "tbl_load table_blocks tbl_words tbl_rules lend_block step_count fsw_base journal_store",
    "cost_bus": "bus_core bus_messages buf_desc table_core table_blocks tbl_words tbl_rules lend_block step_count bus_words ccsds_msg fsw_base",
    "cost_port": "bus_service bus_words ccsds_msg journal_store fsw_base",
}
# rt takes sources in crates alone, so those here have one more ending.
ENDING = ".txt"
# What rt makes, which stays.
MADE = "out"


def copy_crate(source, crate):
    """Copies a crate, and keeps what rt made of an older copy."""
    if crate.exists():
        for path in crate.iterdir():
            if path.is_dir() and path.name != MADE:
                shutil.rmtree(path)
            elif path.is_file():
                path.unlink()
    shutil.copytree(source, crate, ignore=shutil.ignore_patterns(MADE), dirs_exist_ok=True)


def lay_out(folder, name):
    """Writes a copy of the repository's crates to the folder, and the program; where the program's crate is."""
    for source in sorted(Path(TOP, "crates").iterdir()):
        copy_crate(source, folder / "crates" / source.name)
    crate = folder / "crates" / name
    copy_crate(HERE / name, crate)
    for path in sorted(crate.rglob(f"*{ENDING}")):
        if MADE not in path.relative_to(crate).parts:
            path.rename(path.with_suffix(""))
    shutil.copy2(TOP / "HANDLES", folder)
    crates = (TOP / "crates.txt").read_text(encoding="utf-8")
    (folder / "crates.txt").write_text(f"{crates}\n{name}: {USES[name]}\n", encoding="utf-8")
    return crate


def main(words):
    if len(words) < 2 or words[1] not in USES:
        sys.exit(f"{__doc__}\nNAME is one of {', '.join(USES)}.")
    crate = lay_out(Path(words[0]), words[1])
    return subprocess.run(["rt", "run", "--", *words[2:]], cwd=crate).returncode


if __name__ == "__main__":
    sys.exit(main(sys.argv[1:]))
