# A session that tools/try-gdb plays: gdb-multiarch -q -nx reads it from standard input, with a directory of the ELF files
# in place of MADE, and the program in place of PROGRAM.
set prompt
set pagination off
set confirm off
set width 0
set style enabled off
set remotetimeout 60
set trace-commands on
file MADE/second
target remote | tools/gdb --program PROGRAM --symbols MADE --process second examples/lock/lock.coy
info threads
break 38
continue
monitor event
print *(struct shared *)0x1000
watch ((struct shared *)0x1000)->count
continue
info threads
reverse-continue
reverse-stepi
monitor queues
delete
reverse-continue
break main
continue
until 38
finish
monitor why
set var ((struct shared *)0x1000)->count = 0
set var $a0 = 7
continue
monitor event 20
reverse-continue
monitor event
