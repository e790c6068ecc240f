; The lines of 400,000 words of 2^32 and of a chain of 100,000 references.
.seg plain
.seg plain
li r0 1
li r5 100000
open i0 r0
link:
root r1 r0
store i0 r1
commit r3 i0
addi r5 r5 -1
jnz r5 link
halt
