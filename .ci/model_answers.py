"""The executable model, loaded from its file, and the comparison of what it answers with a stored file."""
import importlib.util
from pathlib import Path

# How far the program is built, as the model names it.
STAGE = Path(__file__).with_name("stage").read_text().strip()


def model_of(path):
    spec = importlib.util.spec_from_file_location("fsw", path)
    model = importlib.util.module_from_spec(spec)
    spec.loader.exec_module(model)
    return model


def answer_by(model, words, text):
    """The status and the output on these words, if this is read."""
    model.INPUT = text
    return model.serve(words, model.stage_number(STAGE))


def print_or_compare(wanted, path=None):
    """Prints the model's answers; with a path, the lines of that file that differ.
    The status: 0 if none does, else 1."""
    if not path:
        print("\n".join(wanted))
        return 0
    with open(path) as file:
        answers = file.read().splitlines()
    wrong = [n for n, pair in enumerate(zip(wanted, answers), 1) if pair[0] != pair[1]]
    for n in wrong:
        print(f"line {n}: {answers[n - 1]}, and by the model {wanted[n - 1]}")
    return 1 if wrong or len(wanted) != len(answers) else 0
