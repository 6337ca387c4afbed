"""Steps that look into what a command answers, and steps about explained faults."""
from suite.looks import yes

ESCAPES = {"n": "\n", "s": " "}


def begin(session):
    session.text = ""


def unescaped(text):
    """The text, in which \\n means the end of a line, \\s a space, and a backslash before another letter that letter."""
    found, letters = "", iter(text)
    for letter in letters:
        if letter == "\\":
            letter = next(letters, "")
            letter = ESCAPES.get(letter, letter)
        found += letter
    return found


def briefly(session, line, text):
    """Runs a command whose words tell all: prints which output it answers on, and the status; of standard error also the first word."""
    session.says(line)
    ran = session.program.run(text.split(" ")[1:], clock=1)
    session.text = (ran.out + ran.err).decode()
    session.emit(f"stdout {ran.status}\n" if ran.out else f"stderr {ran.status} {session.text.partition(' ')[0]}\n")


def has(session, line, text):
    session.says(line)
    session.emit(yes(unescaped(text) in session.text) + "\n")


def is_within(text, width):
    return all(len(line.encode()) <= width for line in text.splitlines())


def within(session, line, width):
    session.says(line)
    session.emit(yes(is_within(session.text, int(width))) + "\n")


def explained(session, fault):
    """What is said of the fault, which may have spaces; an empty text if there is no such fault."""
    ran = session.program.run(["explain", fault])
    return ran.out.decode() if ran.status == 0 else ""


def name(session, line, fault):
    """The name of the fault that is printed so."""
    session.says(line)
    session.emit((explained(session, fault).partition("\n")[0] or "no fault") + "\n")


def faults(session, line, widths):
    """Whether each fault's explanation, its name, and its meaning in the list have at most so many bytes, the explanation in each line."""
    session.says(line)
    whole, most, meaning = map(int, widths.split(" "))
    for row in session.program.run(["explain"]).out.decode().splitlines():
        fault, _, means = row.partition(" ")
        fits = is_within(explained(session, fault), whole) and len(fault.encode()) <= most and len(means.lstrip().encode()) <= meaning
        session.emit(f"{fault} {yes(fits)}\n")


STEPS = {"briefly": briefly, "has": has, "within": within, "name": name, "faults": faults}
