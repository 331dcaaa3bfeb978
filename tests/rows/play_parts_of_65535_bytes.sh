# The longest parts there are: one is of plain bytes, one is all escapes, and one is read from sixteen
# messages at once.
awk 'BEGIN {
    print "stream s echo 4294967295/1 4294967295/1\nprocess p\nwrite s:a *65535:61\nfind s:a *65535:00"
    for (i = 0; i < 16; i++) print "write s:a *4096:62"
    print "read s:a 65535\nread s:a 65535"
}'
