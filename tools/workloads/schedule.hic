; Three tasks add up what they do, in the order of a long schedule.
.task sum
.task sum
.task sum
sum:
task r1
li r0 5000000 ; size
again:
add r2 r2 r1
addi r0 r0 -1
jnz r0 again
putn r2
halt
