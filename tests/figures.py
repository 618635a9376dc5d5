"""The sums of votes and the counts of languages: those that a file of an office keeps, and those that queries count, in which nothing of the program has a part."""
import contextlib
import sqlite3

KEPT = ("SELECT number, sum FROM d_vote_sum ORDER BY 1", "SELECT * FROM d_tally ORDER BY 1, 2")
# An obsolete unit counts as that alone, another as read-only where its entry has that flag and else by its state, and suggestions where their unit isn't obsolete.
IS_OPEN = """obsolete = 0 AND flags NOT LIKE '%"read-only"%'"""
COUNTED = (
    "SELECT s.number, 1 + coalesce((SELECT sum(value) FROM d_vote v WHERE v.number = s.number), 0) FROM d_suggestion s ORDER BY 1",
    f"""SELECT l.domain, l.lang, {", ".join(f"total({IS_OPEN} AND state = {state})" for state in range(4))}, total(obsolete = 0 AND flags LIKE '%"read-only"%'),
    total((SELECT count(*) FROM d_suggestion s WHERE u.obsolete = 0 AND s.domain = u.domain AND s.lang = u.lang AND s.key = u.key)), total(obsolete)
    FROM d_language l LEFT JOIN d_unit u ON u.domain = l.domain AND u.lang = l.lang
    LEFT JOIN d_template t ON t.domain = u.domain AND t.key = u.key GROUP BY l.domain, l.lang ORDER BY 1, 2""",
)


def answers(db, queries):
    return [[tuple(row) for row in db.execute(it)] for it in queries]


def kept_and_counted(path):
    """The sums and the counts of a file: those that are kept, and those that are counted."""
    with contextlib.closing(sqlite3.connect(path)) as db:
        return answers(db, KEPT), answers(db, COUNTED)


class Seen:
    """What a closed file has, as SQLite tells it: whether it is whole, what is kept and what counting gives, and what each domain has by queries."""

    def __init__(self, db, own, domains):
        self.whole = answers(db, ("PRAGMA integrity_check", "PRAGMA foreign_key_check"))
        self.kept, self.counted = answers(db, KEPT), answers(db, COUNTED)
        self.own = {it: {name: list(db.execute(text, (it,))) for name, text in own.items()} for it in domains}
