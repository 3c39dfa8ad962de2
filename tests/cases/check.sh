#!/bin/sh
# Compares every table of this folder, or those that are named, with what the programs answer, as rt ci built them. Each
# program has the words of its tables below; a table that no program has fails.
cd "$(dirname "$0")" || exit 1

# The program that compares a table.
program_of() {
    case $1 in
        json | json_bytes | members | messages | parameters | responses | ids | bodies) echo message_cases ;;
        sources | sinks | libraries | readings) echo io_cases ;;
        command_lines | statement_names) echo io_cases ;;
        debug_requests | debug_arguments | debug_bodies) echo message_cases ;;
        debug_sessions | runs | patient_clients | statuses) echo session_cases ;;
        config_groups | config_programs | config_choices) echo message_cases ;;
        library_folders | library_paths | program_groups) echo message_cases ;;
        nodes | chains | variables | set_symbols) echo trace_cases ;;
        names | member_names | lines | widths | character_bytes | text_orders) echo base_cases ;;
        nesting | grown_texts | copies | notes | operands | sublists | number_forms) echo base_cases ;;
        file_paths | file_uris | path_parts | folder_paths) echo base_cases ;;
        frames | pieces | written_frames) echo text_cases ;;
        statements | fields | places) echo text_cases ;;
        changes | columns | positions | store) echo text_cases ;;
        instructions | operation_names | operand_counts | operand_values) echo text_cases ;;
        attributes | defining_operations) echo layout_cases ;;
        constants | literals | layout_statements | layout) echo layout_cases ;;
        expression_notes | symbol_definitions | constant_expressions) echo layout_cases ;;
        statement_checks) echo layout_cases ;;
        machine_operands | operand_checks | instruction_operands | using_statements) echo operand_cases ;;
        arithmetic_trees | ordinary_trees | character_trees | logical_trees) echo statement_cases ;;
        numbers | truths | texts | note_texts) echo statement_cases ;;
        declarations | branches | templates | field_ends | operations | effects | calls) echo statement_cases ;;
        expansions | footprints | held_footprints) echo expansion_cases ;;
        symbol_answers | related_places | same_lists | group_members) echo answer_cases ;;
        occurrences | figures) echo occurrence_cases ;;
        prototypes | bindings | parameter_values) echo statement_cases ;;
        definitions | defining_members | comparisons) echo statement_cases ;;
    esac
}

# The word by which its program knows a table.
word_of() {
    case $1 in
        instruction_operands) echo operand_checks ;; # which has the same columns
        *) echo "$1" ;;
    esac
}

# Compares one table.
compare() {
    name=$(program_of "$1")
    if [ -z "$name" ]; then
        echo "$1: no program compares this table"
        return 1
    fi
    program=../../crates/$name/out/$name
    if [ ! -x "$program" ]; then
        echo "$1: $program is not built: run rt run in crates/$name, or rt ci"
        return 1
    fi
    found=$("$program" "$(word_of "$1")" < "$1.txt")
    answered=$?
    echo "$found" | sed "s/^/$1: /"
    return $answered
}

if [ $# -eq 0 ]; then set -- *.txt; fi
status=0
for file in "$@"; do
    compare "$(basename "$file" .txt)" || status=1
done
exit $status
