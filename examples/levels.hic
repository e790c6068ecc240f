; Forty arrays, each of which names the one before it four times. An array of equal words is one line, so forty lines
; are enough; in a memory of 39 the last commit is the trap `full`.
.seg plain
li r0 0
li r5 40
open i0 r0
root r1 r0
li r2 0
seek i0 r2
store i0 r1
addi r2 r2 1
li r3 4
ltu r4 r2 r3
jnz r4 5
commit r4 i0
addi r5 r5 -1
jnz r5 3
halt
