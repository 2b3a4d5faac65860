#!/usr/bin/env python3
"""Lets `rt lib` take the libraries that `rt ci` has just proved, in place of proving them again.

Some kits keep no work of `rt ci`: its libraries stay in out/, but without the stamp by which rt knows what they were
made from. This writes it. Run it right behind `rt ci`, over the same sources. Where the kit has other names, it does
nothing, and `rt lib` proves once more.
"""
import subprocess
import sys
from pathlib import Path

TOP = Path(__file__).resolve().parent.parent
sys.dont_write_bytecode = True  # nothing is left beside the scripts


def main():
    kit = Path(subprocess.run(["rt", "doc"], capture_output=True, text=True, check=True).stdout.strip()).parent
    sys.path.insert(0, str(kit / "bin"))
    try:
        import rtlib

        whole, known = rtlib.Crate.stamp, {}

        def stamp(crate):
            # Once for each crate, and not once for each way that leads to it.
            if crate.folder not in known:
                known[crate.folder] = whole(crate)
            return known[crate.folder]

        rtlib.Crate.stamp = stamp
        made = [crate for crate in rtlib.crates_below(str(TOP)) if crate.makes_rlib() and Path(crate.rlib).is_dir()]
        for crate in made:
            file = Path(crate.rlib).parent / "stamp"
            if not file.exists():
                file.write_text(crate.stamp(), encoding="utf-8")
    except (ImportError, AttributeError, TypeError) as why:
        print(f"kept: nothing done, the kit has other names: {why}")
        return
    print(f"kept: {len(made)} libraries")


main()
