# As many streams and processes as there may be, and a call of each process on each stream.
awk 'BEGIN {
    for (i = 0; i < 64; i++) print "stream s" i " echo 2/1 2/1"
    for (i = 0; i < 256; i++) {
        print "process p" i
        for (k = 0; k < 64; k++) print "getband s" k ":a"
    }
}'
