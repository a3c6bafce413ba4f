"""Works out what the generator of the load draws, from the description in
docs/FORMAT.md alone.

`python3 -m tools.load_draws` prints the lines that crates/stx_load/specs/WorkedDraws.antt has for three seeds."""

SEEDS = (0, 7, 2**64 - 1)
CLIENTS = 4


def drawn(seed, clients):
    """The payments, as account, other account and amount; the calls of each client; and the turns."""
    state = seed

    def draw(n):
        nonlocal state
        state = (state * 6364136223846793005 + 1442695040888963407) % 2**64
        return state // 2**33 % n

    payments = []
    for _ in range(64):
        account = draw(16)
        other = (account + 1 + draw(15)) % 16
        payments.append((account, other, 1 + draw(50)))
    calls = [[draw(64) for _ in range(8)] for _ in range(clients)]
    turns = [draw(clients) for _ in range(200 * clients)]
    return payments, calls, turns


def listed(entries):
    return " ∷ ".join([*map(str, entries), "[]"])


def worked(seed):
    """What the definition has of a seed, line by line."""
    payments, calls, turns = drawn(seed, CLIENTS)
    yield "(%s)" % listed("pays %d %d %d" % payments[t] for t in (0, 1, 63))
    yield "(%s)" % listed("(%s)" % listed(of_client) for of_client in calls)
    yield "(%s)" % listed(turns[:20])


if __name__ == "__main__":
    for seed in SEEDS:
        print(seed, *worked(seed), sep="\n")
