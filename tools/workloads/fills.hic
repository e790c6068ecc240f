; New lines up to the capacity, 64 words by each commit. Ends in the trap full.
.seg plain
li r0 0
open i0 r0
li r1 0
li r2 0x4c957f2d
li r3 1
outer:
li r7 64
inner:
mul r3 r3 r2
addi r3 r3 12345
seek i0 r1
store i0 r3
addi r1 r1 1
addi r7 r7 -1
jnz r7 inner
commit r4 i0
jmp outer
