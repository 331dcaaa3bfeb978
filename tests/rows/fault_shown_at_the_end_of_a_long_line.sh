# The last 72 bytes of a long line are shown, with the mark behind them.
printf 'stream s echo 9/4 9/4\nprocess p\n'
awk 'BEGIN {
    printf "putmsg s:a ="
    for (i = 0; i < 100; i++) printf "a"
    print " ="
}'
