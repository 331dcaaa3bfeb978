# A tab is shown as a blank, and a byte that is no printable ASCII as `?`. The mark stands under the byte.
printf 'stream s echo 9/4 9/4\nprocess p\n\twrite\ts:a\t=\001x\n'
