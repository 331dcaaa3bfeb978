# Processes that are read by threads, and all that keeps a process from being read by itself: a stream that is
# declared behind it, a push, a line that begins with a space, and a line end of two bytes.
turns() {
    awk -v many="$1" -v to="$2" -v from="$3" -v end="$4" 'BEGIN { for (i = 0; i < many; i++) printf "write %s =x%s\nread %s 1%s\n", to, end, from, end }'
}
echo "stream a echo 9/4 9/4"
echo "stream b echo 9/4 9/4"
echo "process p"
turns 1500 a:a a:a ""
echo "process q"
echo "# nothing"
echo
turns 500 b:a b:a "$(printf '\r')"
echo "stream c loop 9/4 9/4"
echo "stream d echo 9/4 9/4"
echo "stream e echo 9/4 9/4"
echo "process r"
turns 500 c:a c:b ""
echo " process s"
turns 500 d:a d:a ""
echo "process t"
echo "push e:a pass m - -"
turns 500 e:a e:a ""
echo "process u"
