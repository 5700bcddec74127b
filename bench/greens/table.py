"""A row of the table: what is wrong, how it is tried, how it is judged, and its line."""
import pathlib
import re
import traceback
from dataclasses import dataclass

from .runs import Answer, Setting

HEAD = "| row | what is wrong | command | wanted at least | printed | judgement |\n|---|---|---|---|---|---|"


@dataclass
class Row:
    """What is wrong, the command, a pattern of what it has to print at least, and the trial. `wants` is `red`, `told` where standard error is
    enough, or `green` where nothing is wrong with the server. Where it isn't the server's fault, `is_innocent`."""
    name: str
    wrong: str
    command: str
    trial: callable
    least: str = ""
    wants: str = "red"
    is_innocent: bool = False


def is_blamed(row: Row, answer: Answer) -> bool:
    return row.command.startswith("test") and answer.status == 1


def judgement(row: Row, answer: Answer) -> str:
    said = f"{answer.out}\n{answer.err}"
    if answer.status is None:
        return "NO END"
    if (row.is_innocent or row.wants == "green") and is_blamed(row, answer):
        return "BLAMES"
    if row.wants == "green":
        return "right" if answer.status == 0 else "SAYS OTHER"
    is_said = re.search(row.least, said) is not None
    if answer.status == 0 and not (row.wants == "told" and is_said):
        return "ASIDE" if answer.err.strip() else "GREEN"
    return "right" if is_said else "SAYS OTHER"


def cell(text: str) -> str:
    return " ".join(text.split()).replace("|", "/")[:260]


def tried(row: Row, words, number: int, folder: pathlib.Path) -> str:
    """Tries a row, prints its line of the table, and says the judgement."""
    setting = Setting(words.program, folder / str(number), words.port + 6 * number, words.seed)
    try:
        answer = row.trial(setting)
        judged = judgement(row, answer)
    except Exception as fault:
        if words.trace:
            traceback.print_exc()
        answer, judged = Answer(None, f"{type(fault).__name__}: {fault}"), "BROKEN"
    finally:
        setting.end()
    wanted = {"red": "a status that isn't 0", "told": "a status that isn't 0, or words", "green": "status 0"}[row.wants]
    least = f"{wanted}: {row.least}" if row.least and row.wants != "green" else wanted
    print(f"| {row.name} | {cell(row.wrong)} | {cell(row.command)} | {cell(least)} | {cell(answer.printed())} | {judged} |", flush=True)
    return judged
