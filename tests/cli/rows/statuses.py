# "Faults and exit statuses": the status that goes with the first word of an answer, by docs/tables/words.txt, of a drawing,
# or of an assignment.

from records import records  # in tests/lib

STATUS = {row["word"].split()[0]: int(row["status"]) for row in records("words.txt") if "status" in row}
STATUS |= {"digraph": 0, "wq": 0}
