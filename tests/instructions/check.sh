#!/bin/sh
# Whether the rows of instruction_table, docs/INSTRUCTIONS.md, the three tables of cases on each machine instruction and the colours
# of each editor are what tools/instructions/make.py and colours.py make of the table.
tools=$(dirname "$0")/../../tools/instructions
"$tools/make.py" --check && exec "$tools/colours.py" --check
