# A session that tools/try-gdb plays: gdb-multiarch -q -nx reads it from standard input, with a directory of the ELF files
# in place of MADE, and the program in place of PROGRAM.
set prompt
set pagination off
set confirm off
set width 0
set style enabled off
set remotetimeout 60
set trace-commands on
file MADE/writer
target remote | tools/gdb --program PROGRAM --symbols MADE --process writer examples/pager/pager.coy
continue
info threads
monitor why
handle SIGSEGV nostop noprint pass
break 15
continue
print sum
info locals
delete 1
watch *(unsigned *)0x30004
continue
reverse-continue
delete
monitor walk 30004
monitor caps
thread 1
monitor caps
handle SIGSEGV stop print
reverse-continue
monitor event
next
monitor messages
continue
monitor why
set var sum = 0
set var $a0 = 7
