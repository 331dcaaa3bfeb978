# A head and a driver are full at exactly 4096 bytes, and slack at 4095.
awk 'BEGIN {
    print "stream s echo 4096/4095 4096/4095\nprocess p\nwrite s:a *4096:61\nnread s:a\ncanput s:a 0\nwrite s:a =b\nnread s:a"
    print "write s:a *4095:63\ncanput s:a 0\nwrite s:a =d\nread s:a 1\nnread s:a\ncanput s:a 0\nwrite s:a =d\nread s:a 4095\nnread s:a\ncanput s:a 0"
}'
