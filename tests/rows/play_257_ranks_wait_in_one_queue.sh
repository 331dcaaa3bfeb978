# A message of each band and one of high priority wait at one head. They are taken from the highest rank on,
# each band by its number.
awk 'BEGIN {
    print "stream s echo 4294967295/1 4294967295/1\nprocess p"
    for (i = 0; i < 256; i++) print "putpmsg s:a - =x " i " band"
    print "putmsg s:a =h - hipri\nnread s:a\ngetmsg s:a 1 -1 hipri"
    for (i = 255; i >= 0; i--) print "getpmsg s:a -1 1 " i " band"
}'
