# As many lines as there may be streams, each with a message that comes in from it, and a call on each.
awk 'BEGIN {
    for (i = 0; i < 64; i++) print "stream s" i " line 16/4 16/4 1"
    print "process p"
    for (i = 0; i < 64; i++) print "getband s" i ":a"
    for (i = 0; i < 64; i++) print "feed s" i "\ndata 7 =x"
}'
