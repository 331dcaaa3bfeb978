# Each write sends two messages up, its echo and the one that the module sends at once. As many as one process
# can send wait at one head.
awk 'BEGIN {
    print "stream s echo 4294967295/1 4294967295/1\nprocess p\npush s:a tee t - -"
    for (i = 0; i < 65534; i++) print "write s:a =x"
    print "nread s:a"
}'
