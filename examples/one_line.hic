; A thousand commits of one word, each in place of the last. It runs in a memory of 2 lines: the array that is replaced
; leaves as soon as nothing names it. In a memory of 1 line its second commit is the trap `full`.
.seg plain
li r0 0
open i0 r0
li r1 65536
li r5 1000
store i0 r1
commit r2 i0
addi r1 r1 1
addi r5 r5 -1
jnz r5 4
halt
