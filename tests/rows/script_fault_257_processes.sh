# One process too many.
awk 'BEGIN {
    for (i = 0; i < 257; i++) print "process p" i
}'
