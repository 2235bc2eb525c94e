"""Random texts, sound and not, beside the interpreter in `reference`, which knows the pages alone."""

import re

from support import library_alone, reference

import unison
from unison import _calls

library_alone("many calls")

CASES = 600


def theirs(interpreter, case):
    """What the interpreter answers: the report's text or the fault's part and name."""
    texts = {name: case.texts[name] for name in case.wanted() if name != "schedule"}
    try:
        if case.command == "check":
            items = interpreter.read_items(texts["program"])
            interpreter.check(items)
            return interpreter.canonical_text(items)
        plan = interpreter.plan_of(texts)
        if case.command == "replay":
            steps = interpreter.read_schedule(case.texts["schedule"])
            stop = int(case.numbers["stop"])
            interpreter.raise_first("run", {"StopBelowStart": stop < plan.start})
            return interpreter.replay_text(plan, steps, stop)
        rounds = int(case.numbers["rounds"])
        interpreter.raise_first("run", {"RoundsBelowStart": rounds < plan.start})
        return interpreter.report_text(rounds, interpreter.lockstep(plan, rounds))
    except interpreter.Fault as fault:
        return re.sub(" [0-9]+$", "", fault.line.removeprefix("fault: "))


def ours_by_objects(case):
    """What the package answers by programs and networks."""
    program = unison.Program(case.texts["program"])
    if case.command == "check":
        return program.canonical
    network = unison.Network.from_text(case.texts["network"])
    from_ = case.texts["from"] if case.is_from else None
    if case.command == "replay":
        return unison.replay(program, network, case.texts["schedule"], int(case.numbers["stop"]), from_).report()
    rounds = int(case.numbers["rounds"])
    states = unison.lockstep(program, network, rounds, from_)
    assert from_ is not None or unison.watch(program, network, [rounds]).at(rounds) == states
    return states.report()


def fault_of_texts(case):
    """The fault of the texts as they stand, without a look at the network alone."""
    start = case.texts["from"] if case.is_from else b""
    texts = _calls.Texts(case.texts["program"], case.texts["network"], start, case.texts["schedule"])
    try:
        if case.command == "check":
            _calls.check(texts.program)
        elif case.command == "replay":
            _calls.replay(texts, int(case.numbers["stop"]), (0, 0, 0))
        else:
            _calls.lockstep(texts, int(case.numbers["rounds"]), 0)
    except unison.UnisonError as error:
        assert error.diagnosis.partition("\n")[0].find(f"{error.part} {error.name}") >= 0, error.diagnosis
        return f"{error.part} {error.name}"
    return None


def sound_numbers(case):
    """The numbers as the package takes them; those that are none are for a command line."""
    for name in ("rounds", "stop"):
        word = case.numbers[name]
        if not re.fullmatch("[0-9]+", word) or int(word) > 1_000_000_000:
            case.numbers[name] = "2"
    return case


def test_random_texts_beside_the_interpreter():
    interpreter, compare = reference()
    done, faults = 0, set()
    for number in range(CASES):
        case = sound_numbers(compare.Case("python", number))
        right = theirs(interpreter, case)
        fault = fault_of_texts(case)
        if fault is None:
            assert ours_by_objects(case) == right, f"case {number}"
            done += 1
        else:
            assert fault == right, f"case {number}"
            faults.add(fault)
            try:
                ours_by_objects(case)
            except unison.UnisonError:
                pass
            else:
                raise AssertionError(f"case {number}: {fault} is not raised")
    assert done > CASES / 3 and len(faults) > 20, (done, sorted(faults))


def test_random_networks_by_hand_and_by_the_interpreter():
    """Networks made of numbers, with names in another order, and settling found by looking at all rounds."""
    interpreter, compare = reference()
    rules = ["field s = 0; next s = (total n.s % 3);", "field s = 7; next s = (s max most (n.s + n.weight));", "field s = 0; next s = ((id + most n.s) & 5);"]
    for number in range(120):
        draws = compare.Draws(f"made {number}")
        nodes = draws.randrange(1, 9)
        pairs = [(one, other) for one in range(nodes) for other in range(one) if draws.is_rare(2)]
        weights = [draws.choice([0, 1, 2, 3, 4294967295]) for _ in pairs]
        initial = {node: draws.number() for node in range(nodes) if draws.is_rare(2)}
        names = [f"n{draws.random()}" for _ in range(nodes)]
        network = unison.Network(names, [(names[one], names[other]) for one, other in pairs], weights, set={"s": {names[node]: value for node, value in initial.items()}})
        program = unison.Program(draws.choice(rules))
        plan = interpreter.plan_of({"program": program.text, "network": network.text.encode()})
        rounds = [interpreter.lockstep(plan, round) for round in range(40)]
        watched = unison.watch(program, network, range(40))
        for round, states in enumerate(watched):
            assert states.report() == interpreter.report_text(round, rounds[round]), (number, round)
        values = [[state["s"] for state in states] for states in rounds]
        first = next((round for round in range(40) if values[round] in values[:round]), None)
        found = unison.settle(program, network, limit=39)
        if first is None:
            assert found == ("open", 39, 0), number
        else:
            start = values.index(values[first])
            assert found == (("settles", start, 0) if first - start == 1 else ("repeats", start, first - start)), number
