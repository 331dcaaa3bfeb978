# Messages of the highest band and of high priority, with all the control and data that a message may have.
awk 'BEGIN {
    print "stream s line 4294967295/1 4294967295/1 3\nfeed s"
    print "data 255 *4096:61\nproto 255 *1024:62 *4096:63\npcproto *1024:64 *4096:65"
}'
