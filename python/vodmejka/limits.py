"""The limits of the program, by the names that it has for them. `tests/documents.sh` compares the two."""

FILE_BYTES = 16_777_216  # the most bytes of a list, rule, driver, request, household or table file
RULE_BYTES = 67_108_864  # the most bytes of all rule files of a list together
CODE_FILE_BYTES = 1_073_741_824  # the most bytes of a code file, of findings and of a report
LIST_FILES = 1_024  # the most rule files in a list
FILE_NAME_BYTES = 4_096  # the most bytes of a file's name in a list
BRACKET_DEPTH = 256  # the greatest depth of brackets and conditionals
DRIVER_LEVEL = 64  # the greatest level of a line of a driver
LOOP_INSTANCES = 10_000  # the most instances of one loop header
PARTS = 2_000_000  # the most parts after expansion
CELLS = 1_000_000  # the most cells of a base
TABLE_CELLS = 1_024  # the most cells of one table
DRIVER_WEIGHT = 4_000_000  # the greatest weight of a driver
REQUESTS = 100_000  # the most requests, from a file or of `-`
ROWS = 100_000  # the most rows of a household or a table
SESSION_LINE_BYTES = 4_096  # the most bytes of a session's line, without its line feed
INPUT_BYTES = 1_099_511_627_776  # the most bytes that a session takes from its input
LARGE = 100_000  # the greatest number of `large N`
AMOUNT = 10_000_000_000_000  # the greatest amount, in whole units
