"""Recordings of clients: what neovim and eglot sent is in recordings/NAME.in, what the server
answers in NAME.out, byte for byte, but for the first answer, that to `initialize`. The model says
the same of all of it, by what `snl_cli` finds in each text.

Usage: recordings.py SERVER CLI    writes each NAME.out, where the model agrees
"""
import glob
import os
import sys

from protocol import Checker, Model, bodies, compare, frame, run

HERE = os.path.join(os.path.dirname(os.path.realpath(__file__)), "recordings")


def judged(server, cli):
    """For each recording its path, the server's output but for the first answer, and what is wrong
    with all of it by the model."""
    for path in sorted(glob.glob(f"{HERE}/*.in")):
        with open(path, "rb") as file:
            data = file.read()
        out, errors, status = run(server, data)
        checker = Checker(cli)
        model = Model(checker)
        answers = bodies(out)
        wrong = [it for it in compare(model, bodies(data), answers) if it]
        checker.end()
        ending = 1 if model.status is None else model.status
        if (errors, status) != (b"", ending):
            wrong.append(f"status {status}, {errors!r}")
        yield path, b"".join(map(frame, answers[1:])), wrong


def cases(server, cli):
    for path, out, wrong in judged(server, cli):
        name = os.path.basename(path)
        with open(f"{path[:-3]}.out", "rb") as file:
            yield name, "" if out == file.read() else "another output than recorded"
        yield f"{name}, by the model", "; ".join(wrong)


def main():
    for path, out, wrong in judged(*sys.argv[1:]):
        if wrong:
            sys.exit(f"{path}: {wrong[0]}")
        with open(f"{path[:-3]}.out", "wb") as file:
            file.write(out)


if __name__ == "__main__":
    main()
