# A field that is wider than what is shown is marked as far as it is shown.
printf 'stream s echo 9/4 9/4\nprocess p\n'
awk 'BEGIN {
    printf "write s:a "
    for (i = 0; i < 100; i++) printf "a"
    print ""
}'
