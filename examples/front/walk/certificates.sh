#!/bin/sh
# Makes a certificate authority in a directory, and the certificates of servers for loopback: certificates.sh DIRECTORY NAME..
set -eu
cd "$1"
shift
new="-newkey ec -pkeyopt ec_paramgen_curve:prime256v1 -nodes"
openssl req -x509 $new -days 30 -subj /CN=authority -keyout authority.key -out authority.pem 2>/dev/null
for name in "$@"; do
    openssl req $new -subj "/CN=$name" -keyout "$name.key" -out "$name.csr" 2>/dev/null
    echo "subjectAltName=DNS:$name" >"$name.ext"
    openssl x509 -req -in "$name.csr" -CA authority.pem -CAkey authority.key -CAcreateserial -days 30 -extfile "$name.ext" \
        -out "$name.pem" 2>/dev/null
done
