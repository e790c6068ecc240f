; One word after another put into a large array at random, each by a commit.
.seg plain
li r0 0
open i0 r0
li r0 200000 ; size
li r1 1
li r2 0x4c957f2d
lih r2 0x5851f42d
li r3 1442695041
li r4 0x3ffff
li r7 40
again:
mul r1 r1 r2
add r1 r1 r3
shr r5 r1 r7
and r5 r5 r4
seek i0 r5
store i0 r1
commit r6 i0
addi r0 r0 -1
jnz r0 again
putn r6
halt
