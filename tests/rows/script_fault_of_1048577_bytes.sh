# A script that is one byte too long.
awk 'BEGIN {
    for (i = 0; i < 1048576; i++) print ""
    printf "#"
}'
