; The forty arrays of levels.hic in two segments. The second time no line is new, so forty lines are still enough, and
; the two segments have one root. Prints 1.
.seg plain
.seg plain
li r0 0
again:
li r5 40
open i0 r0
level:
root r1 r0
li r2 0
word:
seek i0 r2
store i0 r1
addi r2 r2 1
li r3 4
ltu r4 r2 r3
jnz r4 word
commit r4 i0
addi r5 r5 -1
jnz r5 level
addi r0 r0 1
li r3 2
ltu r4 r0 r3
jnz r4 again
li r0 0
root r1 r0
li r0 1
root r2 r0
eq r3 r1 r2
putn r3
halt
