# 3,005 lines, of which the last is short of a field.
echo "stream a echo 9/4 9/4"
echo "process p"
awk 'BEGIN { for (i = 0; i < 1500; i++) print "write a:a =x" }'
echo "process q"
awk 'BEGIN { for (i = 0; i < 1501; i++) print "read a:a 1" }'
echo "read a:a"
