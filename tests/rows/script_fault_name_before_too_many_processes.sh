# The name of a process is looked at before there are too many.
awk 'BEGIN {
    for (i = 0; i < 256; i++) print "process p" i
    print "process line"
}'
