; Each of 10,000 commits stores a reference to the array before it, which makes a chain of 10,000 lines. The last commit
; puts 1 in place of the first reference: the whole chain leaves at once, and no line is left.
.seg plain
li r0 0
li r5 10000
open i0 r0
root r1 r0
store i0 r1
commit r2 i0
addi r5 r5 -1
jnz r5 3
li r1 1
store i0 r1
commit r2 i0
halt
