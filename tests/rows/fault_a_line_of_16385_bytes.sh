head -c 16385 /dev/zero | tr '\0' '#'
