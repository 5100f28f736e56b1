"""Rows of the directory: the entities of a document with their parents, or as earlier releases wrote them with all their
ancestors, and a file of them, made by the ordinary SQLite that Python has."""
import contextlib
import json
import sqlite3

TABLE = (
    "CREATE TABLE entity (number INTEGER PRIMARY KEY, type TEXT NOT NULL, eid TEXT NOT NULL, json TEXT NOT NULL,"
    " UNIQUE (type, eid)) STRICT"
)
HAS_STRICT = sqlite3.sqlite_version_info >= (3, 37)  # older ones do not know STRICT


def dump(value):
    return json.dumps(value, separators=(",", ":"), ensure_ascii=False)


def closed(entities):
    """The ancestors of each id, ascending: all that is reached from it by parents."""
    parents = {tuple(entity["id"]): [tuple(uid) for uid in entity.get("parents", [])] for entity in entities}
    for uid in parents:
        seen, todo = set(), list(parents[uid])
        while todo:
            above = todo.pop()
            if above not in seen:
                seen.add(above)
                todo += parents.get(above, [])
        yield uid, sorted(seen)


def rows_with_parents(entities):
    """A row for each entity: its type, its eid and its JSON, which is that of the document."""
    for entity in entities:
        kind, eid = entity["id"]
        yield kind, eid, dump({"parents": []} | entity)


def rows_of(entities):
    """A row for each entity with all its ancestors, as in earlier releases: its type, its eid and its JSON."""
    ancestors = dict(closed(entities))
    for entity in entities:
        kind, eid = entity["id"]
        parts = {
            "id": entity["id"],
            "attrs": entity.get("attrs", {}),
            "ancestors": [list(uid) for uid in ancestors[kind, eid]],
            "tags": entity.get("tags", {}),
        }
        yield kind, eid, dump(parts)


def write_rows(path, rows, table=TABLE):
    """Makes the file with the table and the rows."""
    with contextlib.closing(sqlite3.connect(path)) as db, db:
        db.execute(table)
        db.executemany("INSERT INTO entity (type, eid, json) VALUES (?, ?, ?)", rows)


def count_rows(path):
    """How many rows a file has, None where it has no table, and what SQLite says of it."""
    with contextlib.closing(sqlite3.connect(path)) as db:
        (found,) = db.execute("PRAGMA integrity_check").fetchone()
        if not db.execute("SELECT 1 FROM sqlite_schema WHERE name = 'entity'").fetchone():
            return None, found
        (count,) = db.execute("SELECT count(*) FROM entity").fetchone()
        return count, found
