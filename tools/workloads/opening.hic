; A million words of four segments, opened alone.
.seg plain
.seg merge
.seg plain
.seg merge
halt
