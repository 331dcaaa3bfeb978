# One stream too many.
awk 'BEGIN {
    for (i = 0; i < 65; i++) print "stream s" i " echo 2/1 2/1"
}'
