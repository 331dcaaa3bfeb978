# The longest line is a call. It has all the data that a message may have, byte by byte as escapes, and blanks
# to the end of the line.
awk 'BEGIN {
    print "stream s echo 4294967295/1 4294967295/1\nprocess p"
    line = "write s:a ="
    for (i = 0; i < 4096; i++) line = line "%00"
    printf "%-16384s\n", line
    print "read s:a 4096"
}'
