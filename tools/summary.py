"""What became of each top-level call: what its caller saw, and whether its writes are there."""
from tools.form import listed


def rows_text(rows):
    """`a = 5, b is erased`."""
    return ", ".join(f"{row} = {value}" if value is not None else f"{row} is erased" for row, value in rows.items())


def tx_text(tx):
    """What became of one transaction."""
    rows = tx.writes()
    if tx.ended == "commit":
        what = f"COMMITTED as number {tx.commit}: {rows_text(rows)}"
        what = what if rows else f"committed as number {tx.commit}, and wrote nothing"
    else:
        what = f"ROLLED BACK: {listed(rows, 'and')} {'stays as it was' if len(rows) == 1 else 'stay as they were'}"
        what = what if rows else "rolled back, and had written nothing"
    lost = [row for row in tx.undone if row not in rows or tx.ended != "commit"]
    if tx.ended == "commit" and lost:
        what += f"; what was written to {listed(lost, 'and')} was undone at a savepoint"
    return what


def data_text(top):
    """What became of all that a top-level call wrote."""
    ends = {tx.ended for tx in top.txs if tx.writes()} | ({"commit"} if top.own else set())
    if not ends:
        undone = any(tx.undone for tx in top.txs)
        return "what it wrote was undone at a savepoint" if undone else "nothing was written"
    if ends == {"commit"}:
        partly = any(set(tx.undone) - set(tx.writes()) for tx in top.txs)
        return "its writes were COMMITTED" + (", but for those undone at a savepoint" if partly else "")
    if "commit" not in ends:
        return "its writes were ROLLED BACK"
    return "its writes were COMMITTED IN PART"


def saw_text(top):
    return f"the caller got {top.thrown}" if top.thrown else "it returned normally"


def top_lines(top):
    """The summary of a top-level call."""
    lines = [f"client {top.client}, call {top.number}: {top.method}: {saw_text(top)}; {data_text(top)}"]
    for tx in top.txs:
        lines.append(f"  transaction {tx.number}, begun for {tx.frame.method}: {tx_text(tx)}")
    if top.own:
        many = len(top.own) > 4
        shown = ", ".join(rows_text({row: value}) for row, value in top.own[:4])
        lines.append(f"  outside of a transaction, each for itself: {shown}{' and more' if many else ''}")
    return lines


def summary_lines(walk):
    lines = []
    for top in walk.tops():
        lines += top_lines(top)
    rows = dict(walk.report.rows)
    lines.append(f"rows at the end: {rows_text(rows) or 'none'}")
    return lines
