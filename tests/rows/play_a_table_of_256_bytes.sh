# A table turns all bytes round. It maps the data that goes down, and that of the longest ioctl, with the
# greatest command that it knows.
awk 'BEGIN {
    for (i = 0; i < 256; i++) { from = from sprintf("%%%02x", i); to = to sprintf("%%%02x", 255 - i) }
    print "stream s echo 16/4 16/4\nprocess p"
    print "push s:a table t - - =" from " =" to
    print "write s:a =" from "\nread s:a 256\nstr s:a 3 *4096:9e\nstr s:a 4294967295 *4096:9e"
}'
