; Two tasks change one merge segment at different offsets. By the schedule two_writers.sched both open it before one of
; them commits. The second commit merges, and answers 1. Prints 01.
.seg merge
.task a
.task b
a:
li r0 0
open i0 r0
li r1 70001
store i0 r1
commit r2 i0
putn r2
halt
b:
li r0 0
open i0 r0
li r1 5
seek i0 r1
li r2 70002
store i0 r2
commit r3 i0
putn r3
halt
