# A line that is one byte too long.
awk 'BEGIN {
    for (i = 0; i < 16385; i++) printf "#"
}'
