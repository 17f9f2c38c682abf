"""The workloads of the bench: a setup and the lines of a script each, at some scale.

Full size is scale 1. A script has at most 1,048,576 bytes, and a process at most 9,999 steps.
"""

import itertools
import random

LIMIT = 1_048_576
STEPS = 9_999


def setup(algorithm, quorum, answers, version=1):
    """A setup of nine processes, whose process p has the list `answers(p)`."""
    numbers = range(1, 10)
    return {"algorithm": algorithm, "processes": 9, "quorum": quorum, "inputs": [100 * p + 7 for p in numbers],
            "oracle": [answers(p) for p in numbers], "version": version}


def leader_setup(version=1):
    """In each round every process is told another leader, so that none decides."""
    return setup("leader", 5, lambda p: [(p + k) % 9 + 1 for k in range(2_000)], version)


def alpha_setup():
    """Each process is always told that it leads."""
    return setup("alpha", 5, lambda p: [p] * 1_500)


def leader_steps(count, last=9):
    """Steps of a leader run of processes 1 to `last`, as (process, number), made by `auto`, none refused."""
    steps, waiting, sent = [0] * 10, {p: [] for p in range(1, last + 1)}, [0] * 10

    def step(p):
        steps[p] += 1
        return p, steps[p]

    def received(p):
        while waiting[p]:
            waiting[p].pop(0)
            yield step(p)

    def all_steps():
        for kind in itertools.cycle(["query", "send", "phase", "local", "send", "phase", "local", "phase"]):
            for p in waiting:
                yield from received(p)
                if kind != "phase":
                    yield step(p)
                if kind == "send":
                    sent[p] += 1
                    for other in waiting:
                        waiting[other].append(p)

    return list(itertools.islice(itertools.takewhile(lambda it: it[1] <= STEPS, all_steps()), count))


def autos(steps):
    return [f"auto {p}" for p, _ in steps]


def alpha_steps(count):
    return [(k % 9 + 1, k // 9 + 1) for k in range(count)]


def alone(p, rounds):
    """Rounds of one process by itself with quorum 1: two sends and seven steps each."""
    first, second = p % 9 + 1, (p + 1) % 9 + 1
    for it in range(rounds):
        yield from (f"step {p} query {first}", f"step {p} go", f"step {p} recv {p} {2 * it + 1}", f"step {p} query {second}",
                    f"step {p} go", f"step {p} recv {p} {2 * it + 2}", f"step {p} go")


def alone_setup(version=1):
    return setup("leader", 1, lambda p: [], version)


def filled(lines, cycle, scale):
    """The lines and then those of the endless cycle, while they fit into this part of the limit."""
    room = int(LIMIT * scale) - sum(len(line) + 1 for line in lines)
    for line in itertools.cycle(cycle):
        room -= len(line) + 1
        if room < 0:
            return lines
        lines.append(line)


def leader_long(scale):
    return leader_setup(), autos(leader_steps(int(STEPS * 9 * scale)))


def alpha_long(scale):
    return alpha_setup(), autos(alpha_steps(int(STEPS * 9 * scale)))


def last_step(scale):
    """The last step undone and redone."""
    steps = leader_steps(int(45_000 * scale))
    p, k = steps[-1]
    return leader_setup(), filled(autos(steps), [f"undo {p} {k}", "redo"], scale)


def early_steps(scale):
    """Early steps: undos that are refused, and why."""
    steps = leader_steps(int(45_000 * scale))
    return leader_setup(), filled(autos(steps), [f"{act} {p} {k}" for k in (20, 3, 11) for p in (1, 5, 9) for act in ("undo", "why")], scale)


def far_dependents(scale):
    """Sends of processes that then idle, which another one receives only many steps later: undos of the sends, refused."""
    rounds = int(1_400 * scale)
    early = [line for p in (6, 7, 8, 9) for line in itertools.islice(alone(p, 1), 2)]
    steps = [line for lines in zip(*(alone(p, rounds) for p in (1, 2, 3, 4))) for line in lines]
    late = [f"step 5 recv {p} 1" for p in (6, 7, 8, 9)]
    return alone_setup(), filled([*early, *steps, *late], [f"undo {p} 2" for p in (6, 7, 8, 9)], scale)


def far_dependents_alpha(scale):
    """Reads of a register by processes that then idle, which its process writes only many steps later: undos of the reads, refused."""
    early = [f"auto {p}" for p in (7, 8, 9) for _ in range(4)]
    steps = [f"auto {k % 5 + 2}" for k in range(int(40_000 * scale))]
    return alpha_setup(), filled([*early, *steps, *["auto 1"] * 3], [f"undo {p} 4" for p in (7, 8, 9)], scale)


def at_random(act, steps):
    """Endless commands on steps at random, the same each time."""
    choice = random.Random(len(steps))
    while True:
        yield f"{act} {' '.join(map(str, choice.choice(steps)))}"


def why_any(scale):
    """Why of steps at random."""
    steps = leader_steps(int(45_000 * scale))
    return leader_setup(), filled(autos(steps), at_random("why", steps), scale)


def why_any_alpha(scale):
    steps = alpha_steps(int(45_000 * scale))
    return alpha_setup(), filled(autos(steps), at_random("why", steps), scale)


def undo_any(scale):
    """Undos of steps at random, nearly all refused."""
    steps = leader_steps(int(45_000 * scale))
    return leader_setup(), filled(autos(steps), at_random("undo", steps), scale)


def rollback_near(scale):
    """A step near the end rolled back and redone, with some 150 consequences."""
    steps = leader_steps(int(30_000 * scale))
    p, k = steps[-400]
    return leader_setup(), filled(autos(steps), [f"rollback {p} {k}", *["redo"] * 150], scale)


def rollback_leader(scale):
    steps = leader_steps(int(20_000 * scale))
    p, k = steps[len(steps) // 4]
    return leader_setup(), filled(autos(steps), [f"rollback {p} {k}", *["redo"] * (len(steps) * 3 // 4 - 60)], scale)


def rollback_alpha(scale):
    steps = alpha_steps(int(20_000 * scale))
    return alpha_setup(), filled(autos(steps), ["rollback 1 3", *["redo"] * (len(steps) - 30)], scale)


def rollback_apart(scale):
    """An early step of a process that runs alone rolled back and redone, among three times as many steps of others that do."""
    rounds = int(1_400 * scale)
    steps = [line for lines in zip(*(alone(p, rounds) for p in (1, 2, 3, 4))) for line in lines]
    return alone_setup(), filled(steps, ["rollback 1 3", *["redo"] * (7 * rounds - 2)], scale)


def rollback_few(scale):
    """An early send, of which each copy is lost, rolled back and redone in a long run of the others."""
    first = ["auto 9", "auto 9", *(f"lose 9 1 {p}" for p in range(1, 9))]
    steps = autos(leader_steps(int(45_000 * scale), 8))
    return leader_setup(2), filled(first + steps, ["rollback 9 2", *["redo"] * 9], scale)


def losses(scale):
    """Copies lost, found again from the first on, and lost again."""
    rounds = int(1_200 * scale)
    copies = [f"1 {m} {p}" for m in range(1, 2 * rounds + 1) for p in range(2, 10)]
    lost, found = ([f"{act} {it}" for it in copies] for act in ("lose", "undo lost"))
    return alone_setup(2), [*alone(1, rounds), *lost, *found, *["redo"] * len(copies)]


def losses_in_any_order(scale):
    """Copies lost, and found again, in an order at random."""
    rounds, choice = int(1_200 * scale), random.Random(0)
    copies = [f"1 {m} {p}" for m in range(1, 2 * rounds + 1) for p in range(2, 10)]
    lost, found = ([f"{act} {it}" for it in choice.sample(copies, len(copies))] for act in ("lose", "undo lost"))
    return alone_setup(2), filled([*alone(1, rounds), *lost, *found], ["redo"], scale)


def losses_in_the_middle(scale):
    """Copies lost, many steps after them, and then found again and lost again."""
    rounds, more = int(300 * scale), int(1_000 * scale)
    copies = [f"1 {m} {p}" for m in range(1, 2 * rounds + 1) for p in range(5, 10)]
    lost, found = ([f"{act} {it}" for it in copies] for act in ("lose", "undo lost"))
    steps = [line for p in (2, 3, 4) for line in alone(p, more)]
    return alone_setup(2), [*alone(1, rounds), *lost, *steps, *found, *["redo"] * len(copies)]


def waiting_copies(scale):
    """Many copies wait; then they are received, the first and the last of a sender in turn."""
    rounds = int(1_400 * scale)
    lines, count = list(alone(1, rounds)), 2 * rounds
    for m in range(1, rounds + 1):
        lines += [f"step {p} recv 1 {it}" for p in range(2, 9) for it in (m, count + 1 - m)]
    return alone_setup(), lines


def show_history(scale):
    """Reports as long as the history; the cost is counted by line."""
    return leader_setup(), autos(leader_steps(int(10_000 * scale))) + ["show history"] * int(400 * scale)


def show_mail(scale):
    """The mail of many waiting copies; the cost is counted by line."""
    return alone_setup(), list(alone(1, int(120 * scale))) + ["show mail"] * int(400 * scale)


def show_regs(scale):
    """Registers; the cost is counted by line."""
    return alpha_setup(), autos(alpha_steps(int(3_000 * scale))) + ["show regs"] * int(8_000 * scale)


WORKLOADS = {
    "leader-long": leader_long,
    "alpha-long": alpha_long,
    "last-step": last_step,
    "early-steps": early_steps,
    "why-any": why_any,
    "why-any-alpha": why_any_alpha,
    "undo-any": undo_any,
    "far-dependents": far_dependents,
    "far-dependents-alpha": far_dependents_alpha,
    "rollback-leader": rollback_leader,
    "rollback-alpha": rollback_alpha,
    "rollback-apart": rollback_apart,
    "rollback-few": rollback_few,
    "rollback-near": rollback_near,
    "losses": losses,
    "losses-in-any-order": losses_in_any_order,
    "losses-in-the-middle": losses_in_the_middle,
    "waiting-copies": waiting_copies,
    "show-history": show_history,
    "show-mail": show_mail,
    "show-regs": show_regs,
}
# Reports, whose cost is counted by line.
REPORTS = {"show-history", "show-mail", "show-regs"}
