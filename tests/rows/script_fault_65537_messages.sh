# One message too many.
awk 'BEGIN {
    print "stream s line 2/1 2/1 1\nfeed s"
    for (i = 0; i < 65537; i++) print "hangup"
}'
