# The name of a stream is looked at before there are too many.
awk 'BEGIN {
    for (i = 0; i < 64; i++) print "stream s" i " echo 2/1 2/1"
    print "stream s-64 echo 2/1 2/1"
}'
