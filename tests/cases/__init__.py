"""The tables of cases, a file for each command."""
from cases import dumping, editing, explaining, fetching, formatting, keeping, keeping_changes, pulling, readers, reading_words
from cases import recovering, serving, slicing, slips, talking, trusting, updating, verifying

TABLES = (formatting, slicing, dumping, editing, updating, pulling, trusting, verifying,
          serving, talking, keeping, keeping_changes, reading_words, slips, readers, recovering, explaining, fetching)


def all_cases():
    for table in TABLES:
        yield from table.cases()
