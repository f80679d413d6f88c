"""Random scenarios with hostile domains, each also without them."""

import random

SERVICES = ["echo", "upper", "count", "first+3", "split", "exit+7", "none"]
WORDS = ["left_cons", "left_prod", "right_cons", "right_prod", "left_order", "right_order",
         "cli_live", "srv_live", "cli_notify", "srv_notify", "left[3]", "right[1023]"]
STARTS = [0, 0, 1023, 4_294_967_295, 4_294_966_000]


def act(draw, names, most):
    """One act. With `most` it may be one at its limit."""
    kind = draw.randrange(9)
    if most and kind < 3:
        return ["rest 65536", f"scribble {draw.randrange(65536)} 65536", "say 00*1048576"][kind]
    page = "control" if draw.random() < 0.5 else f"{draw.choice(names)}:{513 + draw.randrange(8)}"
    return [
        "hello",
        f"say {draw.randrange(256):02x}*{draw.randrange(1, 300)}",
        f"trigger {draw.choice(names)} {draw.choice(SERVICES)} {draw.randrange(1, 65)}",
        f"terminate {draw.randrange(9)} {513 + draw.randrange(8)}",
        f"poke {page} {draw.choice(WORDS)} {draw.choice([0, 1, 1024, 4294967295, draw.getrandbits(64)])}",
        f"scribble {draw.randrange(65536)} {draw.randrange(1, 2000)}",
        "signal",
        f"rest {draw.randrange(1, 20)}",
        "hello",
    ][kind]


def domain(draw, name, hostile, names, limits):
    lines = ["[[domain]]", f'name = "{name}"']
    if hostile:
        acts = [act(draw, names, False) for _ in range(draw.randrange(12))]
        if limits:
            acts.insert(draw.randrange(len(acts) + 1), act(draw, names, True))
        lines += [f"ports = {draw.randrange(9)}", "hostile = [" + ", ".join(f'"{it}"' for it in acts) + "]"]
    elif draw.random() < 0.3:
        lines.append("version = 2")
    return lines


def scenario(seed):
    """The file of a seed, the same without its hostile domains, and which calls name no hostile one."""
    draw = random.Random(seed)
    names = [f"d{k}" for k in range(1, draw.randrange(3, 8))]
    hostile = {name for name in names[1:] if draw.random() < 0.4}
    honest = [name for name in names if name not in hostile]
    limited = draw.choice(sorted(hostile)) if hostile and draw.random() < 0.3 else None
    head = ["[rings]", f"start = {draw.choice(STARTS)}"]
    domains = {name: domain(draw, name, name in hostile, names, name == limited) for name in names}
    calls = []
    for _ in range(draw.randrange(1, 30)):
        target = draw.choice(names + ["nobody"])
        lines = ["[[call]]", f'from = "{draw.choice(honest)}"', f'to = "{target}"',
                 f'service = "{draw.choice(SERVICES)}"', f"stdin_fill = {draw.choice([0, 1, 5, 2000, 70000])}"]
        calls.append((target, lines))
    whole = head + sum(domains.values(), []) + sum((lines for _, lines in calls), [])
    plain = [lines for target, lines in calls if target not in hostile]
    alone = head + sum((domains[name] for name in honest), []) + sum(plain, [])
    kept = [number for number, (target, _) in enumerate(calls, 1) if target not in hostile]
    return "\n".join(whole) + "\n", "\n".join(alone) + "\n", kept
