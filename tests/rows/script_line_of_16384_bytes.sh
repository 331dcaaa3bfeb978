# The longest line.
awk 'BEGIN {
    for (i = 0; i < 16384; i++) printf "#"
}'
