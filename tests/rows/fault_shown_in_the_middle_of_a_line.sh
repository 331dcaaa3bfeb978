# Of a long line 72 bytes are shown, of which 36 are in front of the mark.
printf 'stream s echo 9/4 9/4\nprocess p\n'
awk 'BEGIN {
    printf "putmsg s:a ="
    for (i = 0; i < 100; i++) printf "a"
    printf " %%6 norm : "
    for (i = 0; i < 100; i++) printf "b"
    print ""
}'
