# The fault of line 1,753 comes before that of line 3,005, whichever is read first.
echo "stream a echo 9/4 9/4"
echo "process p"
awk 'BEGIN { for (i = 0; i < 1500; i++) print "write a:a =x" }'
echo "process q"
awk 'BEGIN { for (i = 0; i < 249; i++) print "read a:a 1" }'
echo "read a:a 65536"
echo "process r"
awk 'BEGIN { for (i = 0; i < 1251; i++) print "read a:a 1" }'
echo "read a:a"
