; Four tasks count down in turn: at each step another one runs.
.task count
.task count
.task count
.task count
count:
li r0 4000000 ; size
again:
addi r0 r0 -1
jnz r0 again
putn r0
halt
