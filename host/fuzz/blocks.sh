#!/usr/bin/env bash
# The addresses in PROGRAM at which basic blocks of ARCHIVE begin: its functions' beginnings, the targets of their jumps, and
# what follows a conditional jump. A block that only a table of addresses leads to is among them where another jump does too.
#
#     blocks.sh ARCHIVE PROGRAM
set -euo pipefail
objdump -d --no-show-raw-insn -w "$2" | awk -v archive="$1" '
    BEGIN {
        list = "nm --defined-only " archive
        while ((list | getline line) > 0)
            if (split(line, part, " ") >= 3 && part[2] ~ /^[tT]$/)
                ours[substr(line, index(line, " " part[2] " ") + 3)] = 1
    }
    /^[0-9a-f]+ <.*>:$/ {
        name = substr($0, index($0, "<") + 1)
        sub(/>:$/, "", name)
        inside = name in ours
        next_begins = inside
        next
    }
    inside && /^ *[0-9a-f]+:\t/ {
        address = $1
        sub(/:$/, "", address)
        is_code[address] = 1
        if (next_begins)
            begins[address] = 1
        next_begins = $2 ~ /^j/ && $2 != "jmp"
        if ($2 ~ /^j/ && $3 ~ /^[0-9a-f]+$/)
            begins[$3] = 1
    }
    END {
        for (address in begins)
            if (address in is_code)
                print address
    }' | awk '{ printf "%16s\n", $1 }' | sort | tr -d ' '
