"""Plan texts at random, all accepted, for tests that hold the desk to the library."""
import re

from pirkvezo.shares import COLOURS, SHARES, colours_of, least_share


def shares_at_random(random, domains):
    """Shares that give every domain a colour, and at most 15 colours for at most 1000."""
    shares, left, colours, least = [], SHARES, COLOURS, least_share(1)
    for others in reversed(range(domains)):
        # each domain behind this one needs a colour
        most = min(left - others * least, least_share(colours - others + 1) - 1)
        shares.append(random.randint(least, min(most, random.choice([34, 100, 134, 300, 1000]))))
        left -= shares[-1]
        colours -= colours_of(shares[-1])
    return shares


def plan_text(random):
    """A plan's text; `random` is a random.Random with a seed of the test's own."""
    domains = random.randint(1, 8)
    shares = shares_at_random(random, domains)
    lines = [f"(pad {random.choice([376, 400, 1000])})"]
    for domain, share in enumerate(shares):
        may = random.sample([b for b in range(domains) if b != domain], random.randint(0, domains - 1))
        lines.append(f"(domain {domain} (share {share}) (may {' '.join(map(str, may))}))")
    for _ in range(random.randint(1, 8)):
        lines.append(f"(window {random.randrange(domains)} (length {random.choice([1, 200, 700, 2000])}))")
    lines.append(f"(run {random.randint(1, 4)})")
    for _ in range(random.randint(0, 120)):
        line = random.choice([random.randrange(64), random.randrange(4096), random.randrange(65536)])
        op = random.choice([f"read {line}", f"write {line}", f"compute {random.randint(1, 200)}",
                            f"send {random.randrange(8)} {random.randrange(65536)}",
                            f"receive {random.randrange(8)}"])
        lines.append(f"(op {random.randrange(domains)} ({op}))")
    return ("\n".join(lines) + "\n").encode()


def respelled(random, text):
    """Another text of the same plan and scripts: other spaces, zeros, empty lines, orders of lines and recipients."""
    series = {}
    for line in filter(None, text.decode().split("\n")):
        words = re.findall(r"[()]|[a-z0-9]+", line)
        # ops keep their order in each domain's script; pad and run stand anywhere
        series.setdefault(" ".join(words[1:3]) if words[1] == "op" else words[1], []).append(words)
    lines, declared = [], 0
    while any(series.values()):
        words = random.choice([waiting for waiting in series.values() if waiting])
        if words[0][1] in ("window", "op") and int(words[0][2]) >= declared:
            continue
        declared += words[0][1] == "domain"
        lines += [""] * random.choice([0, 0, 0, 1]) + [_spaced(random, words.pop(0))]
    return ("\n".join(lines) + random.choice(["", "\n", "\n\n", "\n  \n"])).encode()


def _spaced(random, words):
    """A line of these words, with spaces and zeros where a plan may have them."""
    if words[1] == "domain":
        words[9:-2] = random.sample(words[9:-2], len(words) - 11)
    words = [word.zfill(random.randint(1, 10)) if word.isdigit() else word for word in words]
    line = random.choice(["", " "]) + words[0]
    for before, word in zip(words, words[1:]):
        due = before not in "()" and word not in "()"
        line += " " * max(due, random.choice([0, 1, 1, 3])) + word
    return line + random.choice(["", "  "])
