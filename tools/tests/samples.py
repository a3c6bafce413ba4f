"""Reports that the tests show: real ones, and short ones written out."""
from pathlib import Path

from tools import report
from tools.document import Document
from tools.walk import Walk

FOLDER = Path(__file__).resolve().parent / "samples"
NAMES = ("shop", "eight_clients", "one_row", "set_aside")


def data_of(name):
    return (FOLDER / f"{name}.report").read_bytes()


def scenario_of(name):
    return Document((FOLDER / f"{name}.toml").read_bytes(), name).scenario()


def walk_of(name):
    return Walk(report.read(data_of(name)))


def short(lines, journal="", rows=""):
    """The report of one client with one call."""
    return f"springtx 1\nclient 0\ntop 0\n{lines}journal\n{journal}rows\n{rows}end\n".encode()


# A joined call fails, and its caller goes on: the outer commit comes out as a rollback.
UNEXPECTED = short("""call b.m required
take 1 @p1
begin 1 @s1
open fresh sync
call c.n required
open join
write a 1 done @s2
throw RuntimeException
rules rollback by default
end rollback
mark_global
leave c.n throws RuntimeException
catch RuntimeException
end unexpected
rollback @s3
throw UnexpectedRollbackException
give 1 @p2
leave b.m throws UnexpectedRollbackException
""")

# A call with a transaction of its own finds no connection.
EMPTY_POOL = short("""call b.m required
take 1 @p1
begin 1 @s1
open fresh sync
register s
call c.n requires_new
suspend s
unbind 1
take empty @p2
bind 1
resume s
throw CannotCreateTransactionException
leave c.n throws CannotCreateTransactionException
catch CannotCreateTransactionException
end commit
before_commit s
before_completion s
commit 1 @s2
after_commit s
after_completion s committed
give 1 @p3
leave b.m
""", "commit 1 client 0 tx 1 @s2\n")

# A rule keeps what was written though the caller gets an exception.
KEPT = short("""call b.m required
take 1 @p1
begin 1 @s1
open fresh sync
write a 1 done @s2
throw app.Soft
rules keep by 1
end commit
commit 1 @s3
give 1 @p2
leave b.m throws app.Soft
""", "commit 1 client 0 tx 1 @s3\n", "row a 1\n")

# Publications outside of a transaction, and statements that commit for themselves.
OUTSIDE = short("""call b.m plain
publish e
listen f
skip g
take 1 @p1
auto read a absent @s1
auto write a 2 done @s2
give 1 @p2
leave b.m
""", "commit 1 client 0 auto @s1\ncommit 2 client 0 auto @s2\n", "row a 2\n")

SHORT = (UNEXPECTED, EMPTY_POOL, KEPT, OUTSIDE)
