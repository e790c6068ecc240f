; From word to word of an array that has 300,000 of its 2^32 words.
.seg plain
li r0 0
li r5 5 ; size
again:
open i0 r0
find r1 i0
jz r1 done
more:
load r2 i0
add r3 r3 r2
next r1 i0
jnz r1 more
done:
addi r5 r5 -1
jnz r5 again
putn r3
halt
