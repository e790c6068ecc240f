; Two tasks as in two_writers.hic, but the first commits a word and takes it back, while the second is on its way. By
; the schedule changed_back.sched the second finds what it opened, and its commit answers 0. Prints 0.
.seg merge
.task a
.task b
a:
li r0 0
open i0 r0
li r1 70001
store i0 r1
commit r2 i0
store i0 r0
commit r2 i0
halt
b:
li r0 0
open i0 r0
li r1 5
seek i0 r1
li r2 70002
store i0 r2
commit r3 i0
putn r3
halt
