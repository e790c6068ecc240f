; Two tasks add to one word: each reads it, adds its number and 1, and commits. A commit that answers 2 is a conflict, and
; the task opens the segment again. Prints the answer of each commit.
.seg merge
.task t
.task t
t:
task r3
addi r3 r3 1
li r0 0
again:
open i0 r0
load r1 i0
add r1 r1 r3
store i0 r1
commit r2 i0
putn r2
addi r2 r2 -2
jz r2 again
halt
