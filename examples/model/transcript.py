"""The lines of a transcript, from a session and what became of its bodies."""


def word_text(word):
    return f"0x{word:08x}"


def answer_of(outcome, index):
    """What the board answered to one piece: the words, or the result that is shown in their place."""
    if index >= len(outcome.answers):
        return "skipped"
    words, code = outcome.answers[index]
    return f"error {code} after {len(words)}" if code else words


def done_text(operation, words):
    """The text of an operation that was done, with these words."""
    if operation.verb in ("write", "writeblock"):
        return "done"
    sign = "was" if operation.verb in ("rmwbits", "rmwsum") else "="
    return " ".join([sign, *map(word_text, operation.shown(words))])


def timeout_text(operation, outcome, index, rounds):
    """The text of a piece that was timed out: where it was answered late it is shown as though it were all of the
    operation."""
    begin = f"timeout after {rounds} rounds"
    if outcome.answers is None:
        return f"{begin}, execution unknown"
    answer = answer_of(outcome, index)
    return f"{begin}, answered late: {answer if isinstance(answer, str) else done_text(operation, answer)}"


def result_of(operation, outcomes, rounds):
    """The text of the result, and whether it is a value, `done` or `was`: the first piece that was not done decides."""
    if operation.denied_by is not None:
        return f"denied by rule {operation.denied_by}", False
    words = []
    for body, index in operation.pieces:
        outcome = outcomes[body]
        if outcome.kind == "timeout":
            return timeout_text(operation, outcome, index, rounds), False
        answer = answer_of(outcome, index) if outcome.kind == "replied" else outcome.kind
        if isinstance(answer, str):
            return answer, False
        words += answer
    return done_text(operation, words), True


def line_of(operation, board, outcomes, rounds):
    result, is_good = result_of(operation, outcomes, rounds)
    places = [(outcomes[body].place, index + 1) for body, index in operation.pieces]
    shown = ",".join(f"{place}.{index}" for place, index in places if place is not None)
    line = f"{operation.number} {operation.verb} {board.name}:{operation.name} {result}"
    return (f"{line} @{shown}" if shown else line), is_good


def board_line(board, run):
    """The last lines: how many places a board has, and what became of them."""
    if run.is_silent:
        return f"board {board.name} silent"
    kinds = [outcome.kind for each in run.outcomes for outcome in each if outcome.place is not None]
    replied, timed_out = kinds.count("replied"), kinds.count("timeout")
    return f"board {board.name} places {len(kinds)} replied {replied} timeout {timed_out} lost 0"


def transcript(session, runs):
    """The text and the status of a session, from what became of the bodies on each of its boards."""
    lines = []
    status = 0
    for number, client in enumerate(session.clients):
        lines.append(f"client {number + 1}")
        for operation in client.operations:
            outcomes = runs[operation.board].outcomes[number]
            line, is_good = line_of(operation, session.boards[operation.board], outcomes, session.rounds)
            lines.append(line)
            status |= not is_good
    lines += [board_line(board, run) for board, run in zip(session.boards, runs)]
    return "".join(line + "\n" for line in lines), int(status)
