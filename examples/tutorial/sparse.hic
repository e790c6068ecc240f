; An array of seven words: four small ones side by side, one large one at two places, and a small one far away.
.seg plain
.data 0 0 1
.data 0 1 2
.data 0 2 3
.data 0 3 4
.data 0 64 70000
.data 0 80 70000
.data 0 1000000 9
.task 0
halt
