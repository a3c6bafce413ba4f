"""The form of a scenario as tables: keys, types, words, limits and the built-in classes."""
from collections import namedtuple

# A key of a table: its type, whether it has to be there, and what stands in its arrays.
Key = namedtuple("Key", "type required of", defaults=(False, ""))

TX = {"propagation": Key("string"), "read_only": Key("boolean"), "rules": Key("array", of="string")}
BODIES = ("before_commit", "before_completion", "after_commit", "after_completion")
NAME = Key("string", True)
BODY = Key("array", of="string")

# The tables of a scenario, each with its keys in the order in which the program walks through them.
TABLES = {
    "": {
        "events": Key("array", of="string"),
        "schedule": Key("array", of="integer"),
        "settings": Key("table"),
        "rows": Key("array", of="table"),
        "classes": Key("array", of="table"),
        "beans": Key("array", of="table"),
        "methods": Key("array", of="table"),
        "syncs": Key("array", of="table"),
        "listeners": Key("array", of="table"),
        "clients": Key("array", True, "table"),
    },
    "settings": {"pool": Key("integer"), "sync": Key("string"), "nested": Key("boolean")},
    "rows": {"name": NAME, "value": Key("integer", True)},
    "classes": {"name": NAME, "parent": NAME},
    "beans": {"name": NAME, "tx": Key("table")},
    "methods": {"bean": NAME, "name": NAME, "tx": Key("table"), "body": BODY},
    "syncs": {"name": NAME, "order": Key("integer"), **{each: BODY for each in BODIES}},
    "listeners": {
        "name": NAME, "event": NAME, "phase": Key("string"), "order": Key("integer"), "fallback": Key("boolean"), "body": BODY,
    },
    "clients": {"calls": Key("array", True, "string")},
    "tx": TX,
}

PROPAGATIONS = ("required", "supports", "mandatory", "requires_new", "not_supported", "never", "nested")
WORDS = {
    "propagation": PROPAGATIONS,
    "sync": ("always", "actual", "never"),
    "phase": ("before_commit", "after_commit", "after_rollback", "after_completion"),
}

# How Spring and its users call what a word of a scenario says.
OTHER_NAMES = {
    "requiresnew": "requires_new", "propagation_requires_new": "requires_new", "new": "requires_new",
    "notsupported": "not_supported", "propagation_required": "required", "propagation_nested": "nested",
    "synchronization_always": "always", "synchronization_never": "never", "synchronization_on_actual_transaction": "actual",
    "on_actual_transaction": "actual", "transaction": "actual", "commit": "after_commit", "rollback": "after_rollback",
    "readonly": "read_only", "timeout": "", "isolation": "", "rollbackfor": "rules", "norollbackfor": "rules",
    "extends": "parent", "superclass": "parent", "fallbackexecution": "fallback", "transactional": "tx", "attribute": "tx",
    "statements": "body", "steps": "body", "call": "calls", "methods": "calls", "pool_size": "pool", "size": "pool",
    "exceptions": "classes", "exception": "classes", "synchronizations": "syncs", "synchronisations": "syncs",
    "synchronization": "sync", "savepoints": "nested", "exception_classes": "classes",
}

LIMITS = {
    "clients": 64, "calls": 64, "schedule": 100_000, "rows": 10_000, "classes": 1_000, "beans": 256, "methods": 1_000,
    "syncs": 256, "listeners": 256, "events": 256, "rules": 64, "body": 256, **{each: 256 for each in BODIES},
}
DEEPEST = 64
HEAVIEST = 200_000

BUILT_IN = (
    ("Throwable", None), ("Exception", "Throwable"), ("Error", "Throwable"), ("RuntimeException", "Exception"),
    ("IllegalStateException", "RuntimeException"), ("ArithmeticException", "RuntimeException"),
    ("NestedRuntimeException", "RuntimeException"), ("TransactionException", "NestedRuntimeException"),
    ("CannotCreateTransactionException", "TransactionException"),
    ("NestedTransactionNotSupportedException", "CannotCreateTransactionException"),
    ("TransactionUsageException", "TransactionException"), ("IllegalTransactionStateException", "TransactionUsageException"),
    ("NoTransactionException", "TransactionUsageException"), ("UnexpectedRollbackException", "TransactionException"),
    ("DataAccessException", "NestedRuntimeException"), ("CannotAcquireLockException", "DataAccessException"),
    ("CannotGetJdbcConnectionException", "DataAccessException"),
)

STATEMENTS = {
    "read": "read ROW", "write": "write ROW INT", "erase": "erase ROW", "add": "add ROW INT", "need": "need ROW INT",
    "call": "call BEAN.METHOD [catch CLASS]", "this": "this METHOD [catch CLASS]", "throw": "throw CLASS", "mark": "mark",
    "publish": "publish EVENT", "register": "register SYNC",
}
RULES = ("rollback CLASS", "keep CLASS", "rollback ~PATTERN", "keep ~PATTERN")


def table_name(keys):
    """The name in TABLES of the table that a path's keys lead to."""
    return keys[-1] if keys else ""


def listed(words, last="or"):
    """`a, b or c`."""
    words = list(words)
    return words[0] if len(words) == 1 else f"{', '.join(words[:-1])} {last} {words[-1]}" if words else "none"
