head -c 16384 /dev/zero | tr '\0' '#'
