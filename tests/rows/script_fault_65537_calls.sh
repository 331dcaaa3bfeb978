# One call too many.
awk 'BEGIN {
    print "stream s line 2/1 2/1 1\nprocess p"
    for (i = 0; i < 65537; i++) print "pop s:a"
}'
