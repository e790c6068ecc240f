; A whole version of an array of 4,096 words is made aside, by 16 words, and put in the place of the old one.
.seg merge
li r0 0
li r1 20000 ; size
li r7 4095
again:
root r2 r0
openr i0 r2
li r4 16
word:
mul r5 r4 r1
and r5 r5 r7
seek i0 r5
store i0 r1
addi r4 r4 -1
jnz r4 word
seal r3 i0
mov r6 r0
mcas r6 r2 r3
addi r1 r1 -1
jnz r1 again
putn r6
halt
