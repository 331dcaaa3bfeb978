# The fields of a message are looked at before there are too many.
awk 'BEGIN {
    print "stream s line 2/1 2/1 1\nfeed s"
    for (i = 0; i < 65536; i++) print "hangup"
    print "data 256 =x"
}'
