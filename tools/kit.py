"""What the helpers of ./fsw share: the places, what users are told, and the kit to prove with."""
import os
import re
import subprocess
import sys
import tempfile

TOP = os.path.dirname(os.path.dirname(os.path.abspath(__file__)))
CRATE = os.path.join(TOP, "crates", "host_run")
PROGRAM = os.path.join(CRATE, "out", "host_run")


def tell(line):
    print(f"fsw: {line}", file=sys.stderr, flush=True)


def kit_of_readme():
    """The kit that README names, as `rt version` prints it; None where README names none."""
    with open(os.path.join(TOP, "README.md"), encoding="utf-8") as file:
        found = re.search(r"(rattle-kit-\w+)\W+logic\W+([0-9a-f]{16})", file.read())
    return f"{found[1]} logic {found[2]}" if found else None


def logic_of(kit):
    """What decides whether a proof holds, of a kit's line: the hash of its logic."""
    found = re.search(r"logic ([0-9a-f]{16})", kit or "")
    return found[1] if found else None


def stop_without_kit():
    """Ends the run where there is no rt, and warns where its kit has another logic."""
    wanted = kit_of_readme() or "the kit that README names"
    quiet = dict(stdin=subprocess.DEVNULL, capture_output=True, text=True)
    try:
        found = subprocess.run(["rt", "version"], **quiet).stdout.strip()
    except OSError:
        tell(f"rt isn't on the PATH: install the Rattle kit, {wanted}, and put its rt there")
        sys.exit(1)
    if kit_of_readme() and logic_of(found) != logic_of(wanted):
        tell(f"rt is of {found or 'an unknown kit'}: where this fails, take {wanted}")


# How long a run may take where it is compiled and not proved, and what rt says of one that prints
# too much.
SECONDS = "600"
TOO_LARGE = "wrote more than 1048576 bytes"


class Case:
    """The words and the standard input of a run."""

    def __init__(self, words, text):
        self.words, self.text = words, text


def name_of(at):
    return f"{at:06}"


def write_cases(folder, cases):
    """Writes the runs as rt takes them: each its input, and its words one a line."""
    for at, case in enumerate(cases):
        with open(os.path.join(folder, name_of(at)), "wb") as file:
            file.write(case.text)
        with open(os.path.join(folder, f"{name_of(at)}.args"), "w", encoding="utf-8") as file:
            file.write("".join(f"{word}\n" for word in case.words))


def outputs_of(printed, count):
    """What each of the runs printed: each stands under a line with its name, in order."""
    outputs = [b""] * count
    parts = re.split(rb"(?m)^== (\d{6})\n", printed)
    for name, output in zip(parts[1::2], parts[2::2]):
        outputs[int(name)] = output
    return outputs


def try_cases(cases, is_told=lambda count: None, crate=CRATE, flags=()):
    """Compiles the program, or that of another crate, once, without a proof, and makes these runs:
    of each the status, None where it didn't end by itself, and what it printed. In place of them
    None where nothing was run. Behind that what rt said. `is_told` is called with how many runs have
    ended."""
    ended, said = {}, []
    with tempfile.TemporaryDirectory(prefix="fsw-cases-") as folder, tempfile.TemporaryFile() as out:
        write_cases(folder, cases)
        command = ["rt", "try", "--seconds", SECONDS, *flags, "--cases", folder]
        how = dict(cwd=crate, stdin=subprocess.DEVNULL, stdout=out, stderr=subprocess.PIPE)
        with subprocess.Popen(command, **how) as rt:
            for line in rt.stderr:
                line = line.decode(errors="replace").rstrip("\n")
                said.append(line)
                found = re.match(r"case=(\d+) run=(\S+)(?: status=(\d+))?", line)
                if found:
                    ended[int(found[1])] = int(found[3]) if found[2] == "ended" else None
                    is_told(len(ended))
        out.seek(0)
        outputs = outputs_of(out.read(), len(cases))
    if not ended:
        return None, "\n".join(said)
    return [(ended.get(at), output) for at, output in enumerate(outputs)], "\n".join(said)
