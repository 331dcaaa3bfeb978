# A carriage return before the line feed is no part of the line.
printf 'process p\r\nread s:a\r\n'
