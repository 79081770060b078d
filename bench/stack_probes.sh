#!/bin/sh
# Says where LLVM's build of a program clobbers a register that is in use: bench/stack_probes.sh PROGRAM..
#
# A function whose frame is over eight pages begins with a loop that touches each page, and keeps the loop's end in
# r11. LLVM 22.1.8 moves this beginning behind early returns, and doesn't ask whether r11 holds something there. Prints
# each function with such a loop; "CLOBBERED" where r11 was set before it. Exit status 1 where one is.
status=0
for program in "$@"; do
    found=$(objdump -d --no-show-raw-insn "$program" | awk '
        /^[0-9a-f]+ <.*>:/ { name = $2; set = "" }
        /mov +%rsp,%r11$/ { print (set == "" ? "fine      " : "CLOBBERED ") name (set == "" ? "" : " after" set); next }
        /,%r11[dwb]?$/ && !/(cmp|test) / { set = $0 }')
    echo "$program:"
    echo "$found"
    case $found in *CLOBBERED*) status=1 ;; esac
done
exit $status
