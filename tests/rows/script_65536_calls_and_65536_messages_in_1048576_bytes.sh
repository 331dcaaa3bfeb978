# As many calls as a process may have, and as many messages as a feed may have, through the greatest ring.
# Empty lines make it the longest script.
awk 'BEGIN {
    head = "stream s line 2/1 2/1 4096\nprocess p\n"
    printf "%s", head
    for (i = 0; i < 65536; i++) print "pop s:a"
    print "feed s"
    for (i = 0; i < 65536; i++) print "hangup"
    for (left = 1048576 - length(head) - 65536 * 8 - 7 - 65536 * 7; left > 0; left--) print ""
}'
