; A chain of as many lines as the size, each a reference to the one before, freed by one commit; and all of it once more.
.seg plain
li r0 0
li r2 2
twice:
li r5 500000 ; size
open i0 r0
link:
root r1 r0
store i0 r1
commit r3 i0
addi r5 r5 -1
jnz r5 link
li r1 1
store i0 r1
commit r3 i0
addi r2 r2 -1
jnz r2 twice
halt
