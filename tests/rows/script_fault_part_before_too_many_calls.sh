# The fields of a call are looked at before there are too many.
awk 'BEGIN {
    print "stream s echo 2/1 2/1\nprocess p"
    for (i = 0; i < 65536; i++) print "pop s:a"
    print "write s:a x"
}'
