#!/bin/sh
# Makes an authority and two certificates of it, for a server and for a client: certificates.sh FOLDER SERVER CLIENT
# The server's name is the one by which clients reach it. The authority's key, ca.key, belongs on neither machine. Where FOLDER has an authority, it
# ends with status 1 and makes nothing.
set -eu
umask 077
mkdir -p "$1"
cd "$1"
for left in ca.pem ca.key; do
    [ ! -e "$left" ] || {
        echo "certificates.sh: $1/$left is there: with a new authority, all certificates of the old one would be refused; give another folder" >&2
        exit 1
    }
done
new_key="-newkey ec -pkeyopt ec_paramgen_curve:prime256v1 -nodes"

# shellcheck disable=SC2086    # they are several words
openssl req -x509 $new_key -days 3650 -subj "/CN=authority of $2" -keyout ca.key -out ca.pem 2>openssl.log

signed() {    # the file, the name in it, and what it is for
    # shellcheck disable=SC2086
    openssl req $new_key -subj "/CN=$2" -addext "subjectAltName=DNS:$2" -addext "extendedKeyUsage=$3" -keyout "$1.key" -out "$1.csr" 2>>openssl.log
    openssl x509 -req -in "$1.csr" -CA ca.pem -CAkey ca.key -CAcreateserial -copy_extensions copy -days 365 -out "$1.pem" 2>>openssl.log
    rm "$1.csr"
}

signed server "$2" serverAuth
signed client "$3" clientAuth
